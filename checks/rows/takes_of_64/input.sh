repeat() { for _ in $(seq "$1"); do printf '%s' "$2"; done; }
printf '%s\n' 'open 1' 'send 1 CONNECT {"user":"demo","pass":"demo","verbose":false}\r\n'
printf '%s\n' "send 1 SUB foo 1\\r\\n$(repeat 64 'PUB foo 0\r\n\r\n')"
printf '%s\n' "send 1 $(repeat 65 'PUB foo 0\r\n\r\n')"
printf '%s\n' "send 1 $(repeat 1024 'PUB foo 0\r\n\r\n')"
