. ../../pieces
printf '%s' '.profile 1;'
numbered 0 16383 '.class C' '{}'
