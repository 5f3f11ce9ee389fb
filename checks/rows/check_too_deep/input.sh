printf '%128s' '' | tr ' ' '['
printf '%128s' '' | tr ' ' ']'
