# A policy whose user may publish on eight forms of subjects, the last of which ends with this token.
policy() {
    printf '{"accounts":{"A":{"users":[{"user":"u","password":"p","permissions":{"publish":["t.a.b.c.1","t.*.b.c.2","t.a.*.c.3","t.a.b.*.4","t.*.*.c.5","t.*.b.*.6","t.a.*.*.7","t.*.*.*.%s"]}}]}}}\n' "$1"
}

# 5,000 subjects that end with 8, a hundred in each piece, and one that ends with 9 behind each piece.
round() {
    for ((piece = 0; piece < 50; piece++)); do
        printf 'send 1 '
        for ((each = 1; each <= 100; each++)); do
            printf 'PUB t.x.y.%d.8 0\\r\\n\\r\\n' $((100 * piece + each))
        done
        printf 'PUB t.x.y.%d.9 0\\r\\n\\r\\n\n' $((100 * piece))
    done
}

printf 'policy '
policy 8
printf 'open 1\nsend 1 CONNECT {"user":"u","pass":"p","verbose":false}\\r\\n\n'
round
round
printf 'reload '
policy 9
round
