. ../../pieces
printf '%s' '.profile 1;'
numbered 0 65535 '.function f' '(){}'
