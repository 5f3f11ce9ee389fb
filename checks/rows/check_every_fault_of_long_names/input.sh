# An unknown key, and behind it 341 in an account whose name has 200,000 bytes.
printf '{"a": 1, "accounts": {"'
head -c 200000 /dev/zero | tr '\0' b
printf '": {'
seq -f '"k%.0f": 1, ' 340 | tr -d '\n'
printf '"z": 1}}}\n'
