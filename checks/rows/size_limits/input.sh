spaces() { printf '%*s' "$1" ''; }
letters() { head -c "$1" /dev/zero | tr '\0' a; }
connect() { printf '%s\n' "open $1" "send $1 CONNECT {\"user\":\"demo\",\"pass\":\"demo\",\"verbose\":false,\"headers\":true}\\r\\n"; }
# PING and 4,092 spaces are 4,096 bytes. Then the longest messages.
connect 1
printf '%s\n' "send 1 PING$(spaces 4092)\\r\\n"
printf '%s\n' "send 1 PING$(spaces 4092)\\n"
printf '%s\n' "send 1 SUB foo 1\\r\\nPUB foo 1048576\\r\\n$(letters 1048576)\\r\\n"
printf '%s\n' "send 1 HPUB foo 1048575 1048576\\r\\n$(letters 1048576)\\r\\n"
printf '%s\n' 'send 1 UNSUB 1 9223372036854775807\r\nPING\r\n'
# One more of each.
connect 2
printf '%s\n' "send 2 PING$(spaces 4093)\\r\\n"
connect 3
printf '%s\n' 'send 3 PUB foo 1048577\r\n'
connect 4
printf '%s\n' 'send 4 HPUB foo 0 1048577\r\n'
connect 5
printf '%s\n' 'send 5 UNSUB 1 9223372036854775808\r\n'
# Too long at the byte behind a CR that ends no line.
connect 6
printf '%s\n' "send 6 PING$(spaces 4092)\\r" 'send 6 x'
