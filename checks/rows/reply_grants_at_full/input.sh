cat << 'END'
policy {"accounts":{"A":{"users":[{"user":"s","password":"s","permissions":{"allow_responses":true}},{"user":"c","password":"c"}]}}}
open 1
send 1 CONNECT {"user":"s","pass":"s","verbose":false}\r\nSUB req 1\r\n
open 2
send 2 CONNECT {"user":"c","pass":"c","verbose":false}\r\nSUB r.* 1\r\n
END
for n in $(seq 0 1024); do
    printf '%s\n' "send 2 PUB req r.$n 0\\r\\n\\r\\n"
done
printf '%s\n' 'send 1 PUB r.0 1\r\na\r\nPUB r.1 1\r\nb\r\nPUB r.1024 1\r\nc\r\n'
