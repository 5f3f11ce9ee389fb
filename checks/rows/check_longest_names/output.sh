printf 'config BadName /accounts/%s\n' "$(printf '%257s' '' | tr ' ' a)"
