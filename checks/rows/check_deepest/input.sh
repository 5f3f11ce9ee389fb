printf '%127s' '' | tr ' ' '['
printf '%127s' '' | tr ' ' ']'
