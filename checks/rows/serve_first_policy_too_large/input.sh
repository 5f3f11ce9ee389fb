printf '1048577\n'; head -c 1048577 /dev/zero | tr '\0' ' '
