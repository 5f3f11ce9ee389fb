echo "policy $(tr -d '\n' < ../../../examples/canary.json)"
cat << 'END'
open 1
send 1 CONNECT {"user":"prices","pass":"s3cret","verbose":false}\r\nSUB price.* 1\r\n
open 2
send 2 CONNECT {"user":"canary","pass":"n3w","verbose":false}\r\nSUB new.price.* 2\r\n
open 3
send 3 CONNECT {"user":"shop","pass":"w3lcome","verbose":false}\r\nSUB inbox.* 3\r\n
word 0
word 38654705664
word 42949672960
send 3 PUB price.tea inbox.1 1\r\n1\r\n
send 3 PUB price.tea inbox.2 1\r\n2\r\n
send 3 PUB price.tea inbox.3 1\r\n3\r\n
send 2 PUB _R_.0000000000000000.1 1\r\n4\r\n
send 1 PUB _R_.0000000a00000000.3 1\r\n3\r\n
END
