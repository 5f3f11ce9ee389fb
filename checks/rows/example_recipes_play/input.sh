{ printf "policy "; tr -d "\n" < ../../../examples/recipes.json; printf "\n"; cat <<"S"
open 1
open 2
open 3
send 1 CONNECT {"user":"requester","pass":"a5k","verbose":false}\r\nSUB _INBOX.1.* 1\r\n
send 2 CONNECT {"user":"responder","pass":"t3ll","verbose":false}\r\nSUB prices.* 1\r\n
send 3 CONNECT {"user":"sensor","pass":"s3nse","verbose":false}\r\nSUB stock.> 1\r\n
send 1 PUB prices.tea _INBOX.1.1 0\r\n\r\n
send 2 PUB _INBOX.1.1 1\r\n4\r\n
S
}
