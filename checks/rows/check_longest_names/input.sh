letters() { printf '%*s' "$1" '' | tr ' ' "$2"; }
printf '%s' "{\"accounts\":{\"$(letters 256 a)\":{\"users\":[{\"user\":\"$(letters 256 b)\",\"password\":\"\"}]},\"$(letters 257 a)\":1}}"
