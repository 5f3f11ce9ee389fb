printf '%s\n' '1< INFO {"auth_required":true,"client_id":1,"headers":true,"max_payload":1048576,"proto":1,"server_id":"natsd","version":"0.1.0"}\r\n' '1< +OK\r\n'
printf '1< '
for sid in $(seq 4096); do printf '%s' '+OK\r\n'; done
printf '\n'
printf '%s\n' "1< -ERR 'Maximum Subscriptions Exceeded'\\r\\n+OK\\r\\n-ERR 'Permissions Violation for Subscription to \"bar\"'\\r\\n+OK\\r\\n+OK\\r\\n"
