. ../../pieces
printf '%s' '.profile 1;'
numbered 0 16384 '.class C' '{}'
