printf '{"accounts":{}}%1048561s' ''
