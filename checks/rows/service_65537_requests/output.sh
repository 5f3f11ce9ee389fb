info() { printf '%s< INFO {"auth_required":true,"client_id":%s,"headers":true,"max_payload":1048576,"proto":1,"server_id":"natsd","version":"0.1.0"}\\r\\n\n' "$1" "$1"; }
info 1
info 2
number=0
for ((i = 0; i < 1024; i++)); do
    printf '1< '
    for ((j = 0; j < 64; j++)); do printf '%s' "MSG pubq.C 1 _R_.0000000000000000.$((++number))"' 0\r\n\r\n'; done
    echo
done
echo '2< PONG\r\n'
echo '2< MSG inbox.1 2 2\r\nok\r\n'
echo '1< MSG pubq.C 1 _R_.0000000000000000.65537 4\r\nfits\r\n'
echo '1< MSG pubq.C 1 _R_.0000000000000000.65538 5\r\nagain\r\n'
