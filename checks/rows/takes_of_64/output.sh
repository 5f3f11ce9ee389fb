repeat() { for _ in $(seq "$1"); do printf '%s' "$2"; done; }
printf '%s\n' '1< INFO {"auth_required":true,"client_id":1,"headers":true,"max_payload":1048576,"proto":1,"server_id":"natsd","version":"0.1.0"}\r\n'
for deliveries in 64 64 1 64 64 64 64 64 64 64 64 64 64 64 64 64 64 64 64; do
    printf '%s\n' "1< $(repeat "$deliveries" 'MSG foo 1 0\r\n\r\n')"
done
