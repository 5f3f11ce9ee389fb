tokens() { printf '%*s' "$1" '' | sed "s/ /$2./g; s/[.]$//"; }
printf '%s\n' '1< INFO {"auth_required":true,"client_id":1,"headers":true,"max_payload":1048576,"proto":1,"server_id":"natsd","version":"0.1.0"}\r\n'
printf '%s\n' "1< -ERR 'Invalid Subject'\\r\\n" "1< -ERR 'Invalid Subject'\\r\\n"
printf '%s\n' "1< MSG $(tokens 512 a) 1 0\\r\\n\\r\\n"
