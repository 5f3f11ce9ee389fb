tokens() { printf '%*s' "$1" '' | sed "s/ /$2./g; s/[.]$//"; }
printf '%s\n' 'open 1' 'send 1 CONNECT {"user":"demo","pass":"demo","verbose":false}\r\n'
printf '%s\n' "send 1 SUB $(tokens 512 '*') 1\\r\\n"
printf '%s\n' "send 1 SUB $(tokens 513 '*') 2\\r\\n"
printf '%s\n' "send 1 PUB $(tokens 513 a) 0\\r\\n\\r\\n"
printf '%s\n' "send 1 PUB $(tokens 512 a) 0\\r\\n\\r\\n"
