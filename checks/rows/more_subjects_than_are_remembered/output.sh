# What a publish on a subject that is denied is sent.
denied() {
    printf -- "-ERR 'Permissions Violation for Publish to \"%s\"'\\\\r\\\\n" "$1"
}

printf '%s\n' '1< INFO {"auth_required":true,"client_id":1,"headers":true,"max_payload":1048576,"proto":1,"server_id":"natsd","version":"0.1.0"}\r\n'
for ((piece = 0; piece < 100; piece++)); do
    printf '1< %s\n' "$(denied "t.x.y.$((100 * (piece % 50))).9")"
done
printf 'epoch 2\n'
for ((piece = 0; piece < 50; piece++)); do
    printf '1< '
    for ((each = 1; each <= 100; each++)); do
        denied "t.x.y.$((100 * piece + each)).8"
    done
    printf '\n'
done
