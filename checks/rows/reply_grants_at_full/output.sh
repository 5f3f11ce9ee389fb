info() { printf '%s\n' "$1< INFO {\"auth_required\":true,\"client_id\":$1,\"headers\":true,\"max_payload\":1048576,\"proto\":1,\"server_id\":\"natsd\",\"version\":\"0.1.0\"}\\r\\n"; }
info 1
info 2
for n in $(seq 0 1024); do
    printf '%s\n' "1< MSG req 1 r.$n 0\\r\\n\\r\\n"
done
printf '%s\n' "1< -ERR 'Permissions Violation for Publish to \"r.0\"'\\r\\n" '2< MSG r.1 1 1\r\nb\r\nMSG r.1024 1 1\r\nc\r\n'
