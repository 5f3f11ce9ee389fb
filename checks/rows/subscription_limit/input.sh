printf '%s\n' 'open 1' 'send 1 CONNECT {"user":"limited","pass":"limited"}\r\n'
printf 'send 1 '
for sid in $(seq 4096); do printf '%s' "SUB foo.$sid $sid\\r\\n"; done
printf '\n'
printf '%s\n' 'send 1 SUB foo.x 4097\r\nSUB foo.x 1\r\nSUB bar 4098\r\nUNSUB 4096\r\nSUB foo.x 4097\r\n'
