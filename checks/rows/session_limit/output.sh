info() { printf '%s\n' "$1< INFO {\"auth_required\":true,\"client_id\":$1,\"headers\":true,\"max_payload\":1048576,\"proto\":1,\"server_id\":\"natsd\",\"version\":\"0.1.0\"}\\r\\n"; }
for conn in $(seq 4097); do info "$conn"; done
printf '%s\n' "4097< -ERR 'Maximum Connections Exceeded'\\r\\n" '4097 closed'
info 4097
printf '%s\n' '4097< +OK\r\n'
