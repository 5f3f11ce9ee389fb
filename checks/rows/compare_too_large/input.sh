head -c 1048577 /dev/zero
