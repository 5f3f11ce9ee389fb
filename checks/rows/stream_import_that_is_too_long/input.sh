long=$(printf 'a.%.0s' {1..511})a
cat <<'EOT'
policy {"accounts":{"A":{"users":[{"user":"a","password":"a"}],"exports":[{"stream":">"}]},"B":{"users":[{"user":"b","password":"b"}],"imports":[{"stream":{"account":"A","subject":">"},"prefix":"p"}]},"C":{"users":[{"user":"c","password":"c"}],"imports":[{"stream":{"account":"A","subject":">"}}]}}}
open 1
send 1 CONNECT {"user":"a","pass":"a","verbose":false}\r\n
open 2
send 2 CONNECT {"user":"b","pass":"b","verbose":false}\r\n
open 3
send 3 CONNECT {"user":"c","pass":"c","verbose":false}\r\n
send 1 SUB > 1\r\n
send 2 SUB > 2\r\n
send 3 SUB > 3\r\n
EOT
printf '%s\n' "send 1 PUB $long 1\\r\\nm\\r\\n" "send 1 PUB ${long%.a} 1\\r\\nn\\r\\n"
