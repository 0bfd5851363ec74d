. ../../pieces
printf '%s' '.profile 1;'
bytes 134217718 " "
