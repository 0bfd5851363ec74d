. ../../pieces
printf '%s' '.profile 1;'
bytes 16777206 ' '
