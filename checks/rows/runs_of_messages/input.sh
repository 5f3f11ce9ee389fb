# Client 1 publishes, and client 2 has three members of a queue group and a subscription of its own. What is in each piece:
# a number is the message of that number.
pieces() {
    for verbose in false true; do
        begin $verbose
        for count in 1 2 63 64 65 200; do piece $verbose $(seq 1 $count); done
        for item in ping denied subject headers sub reply; do
            for at in 0 1 2 63 64 65; do piece $verbose $(seq 1 $at) $item $(seq $((at + 1)) 68); done
        done
        piece $verbose 1 2 3 denied denied 4 5 denied
        piece $verbose $(seq 1 70) unknown 71 72
    done
}
client() { # NUMBER VERBOSE
    echo "open $1"
    echo "send $1 CONNECT {\"user\":\"u\",\"pass\":\"p\",\"verbose\":$2,\"headers\":true}\\r\\n"
}
begin() { client 1 "$1"; }
piece() {
    local text= item
    for item in "${@:2}"; do
        case $item in
        ping) text+='PING\r\n' ;;
        denied) text+='PUB no.way 1\r\nx\r\n' ;;
        subject) text+='PUB m..1 1\r\nx\r\n' ;;
        headers) text+='HPUB m.h 12 13\r\nNATS/1.0\r\n\r\nx\r\n' ;;
        sub) text+='SUB own 1\r\n' ;;
        reply) text+='PUB m.r bad..reply 1\r\nx\r\n' ;;
        unknown) text+='XYZ\r\n' ;;
        *) text+="PUB m.$item ${#item}\\r\\n$item\\r\\n" ;;
        esac
    done
    echo "send 1 $text"
}
if [ "$0" != input.sh ]; then return; fi
echo 'policy {"accounts":{"A":{"users":[{"user":"u","password":"p","permissions":{"publish":{"allow":[">"],"deny":["no.>"]}}}]}}}'
client 2 false
echo 'send 2 SUB m.* g a\r\nSUB m.* g b\r\nSUB m.* g c\r\nSUB > all\r\n'
for ((i = 0; i < 6000; i++)); do echo "word $((i * i % 11))"; done
pieces
