letters() { head -c "$1" /dev/zero | tr '\0' a; }
info() { printf '%s\n' "$1< INFO {\"auth_required\":true,\"client_id\":$1,\"headers\":true,\"max_payload\":1048576,\"proto\":1,\"server_id\":\"natsd\",\"version\":\"0.1.0\"}\\r\\n"; }
info 1
printf '%s\n' '1< PONG\r\n' '1< PONG\r\n'
printf '%s\n' "1< MSG foo 1 1048576\\r\\n$(letters 1048576)\\r\\n"
printf '%s\n' "1< HMSG foo 1 1048575 1048576\\r\\n$(letters 1048576)\\r\\n"
printf '%s\n' '1< PONG\r\n'
info 2
printf '%s\n' "2< -ERR 'Maximum Control Line Exceeded'\\r\\n" '2 closed'
info 3
printf '%s\n' "3< -ERR 'Maximum Payload Violation'\\r\\n" '3 closed'
info 4
printf '%s\n' "4< -ERR 'Maximum Payload Violation'\\r\\n" '4 closed'
info 5
printf '%s\n' "5< -ERR 'Parser Error'\\r\\n" '5 closed'
info 6
printf '%s\n' "6< -ERR 'Maximum Control Line Exceeded'\\r\\n" '6 closed'
