# Each message that comes to the hub takes the next word, and the word chooses the member of the queue group.
. ./input.sh
members=(a b c)
next=0
info() { echo "$1< INFO {\"auth_required\":true,\"client_id\":$1,\"headers\":true,\"max_payload\":1048576,\"proto\":1,\"server_id\":\"natsd\",\"version\":\"0.1.0\"}\\r\\n"; }
begin() {
    info 1
    if $1; then echo '1< +OK\r\n'; fi
}
deliver() { # THE TEXT BEFORE THE SID, AND BEHIND IT
    deliveries+=("$1${members[next * next % 11 % 3]}$2" "$1all$2")
    next=$((next + 1))
}
piece() {
    local told= ok= item
    deliveries=()
    if $1; then ok='+OK\r\n'; fi
    for item in "${@:2}"; do
        case $item in
        ping) told+='PONG\r\n' ;;
        denied) told+="-ERR 'Permissions Violation for Publish to \"no.way\"'\\r\\n"; next=$((next + 1)) ;;
        subject | reply) told+="-ERR 'Invalid Subject'\\r\\n" ;;
        headers) told+=$ok; deliver 'HMSG m.h ' ' 12 13\r\nNATS/1.0\r\n\r\nx\r\n' ;;
        sub) told+=$ok ;;
        unknown) told+="-ERR 'Unknown Protocol Operation'\\r\\n"; break ;;
        *) told+=$ok; deliver "MSG m.$item " " ${#item}\\r\\n$item\\r\\n" ;;
        esac
    done
    if [ -n "$told" ]; then echo "1< $told"; fi
    if [ "$item" = unknown ]; then echo '1 closed'; fi
    for ((i = 0; i < ${#deliveries[@]}; i += 64)); do (IFS=; echo "2< ${deliveries[*]:i:64}"); done
}
info 2
pieces
