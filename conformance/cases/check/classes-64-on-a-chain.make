. ../../pieces
printf '%s' '.profile 1;'
chain 63
printf '%s' '.class C63{}'
