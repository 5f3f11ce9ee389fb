# Held connections aren't drained, which makes this quick.
for conn in $(seq 4096); do
    printf '%s\n' "open $conn" "hold $conn" "send $conn CONNECT {\"user\":\"demo\",\"pass\":\"demo\",\"verbose\":false}\\r\\n"
done
printf '%s\n' 'open 4097' 'send 4097 CONNECT {"user":"nobody"}\r\n'
printf '%s\n' 'end 7' 'open 4097' 'send 4097 CONNECT {"user":"demo","pass":"demo"}\r\n'
