printf '%1048577s' ''
