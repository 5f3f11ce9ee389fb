long=$(printf 'a.%.0s' {1..511})a
cat <<'EOT'
1< INFO {"auth_required":true,"client_id":1,"headers":true,"max_payload":1048576,"proto":1,"server_id":"natsd","version":"0.1.0"}\r\n
2< INFO {"auth_required":true,"client_id":2,"headers":true,"max_payload":1048576,"proto":1,"server_id":"natsd","version":"0.1.0"}\r\n
3< INFO {"auth_required":true,"client_id":3,"headers":true,"max_payload":1048576,"proto":1,"server_id":"natsd","version":"0.1.0"}\r\n
EOT
printf '%s\n' "1< MSG $long 1 1\\r\\nm\\r\\n" "3< MSG $long 3 1\\r\\nm\\r\\n"
printf '%s\n' "1< MSG ${long%.a} 1 1\\r\\nn\\r\\n" "2< MSG p.${long%.a} 2 1\\r\\nn\\r\\n" "3< MSG ${long%.a} 3 1\\r\\nn\\r\\n"
