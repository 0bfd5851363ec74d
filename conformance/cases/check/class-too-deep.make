. ../../pieces
printf '%s' '.profile 1;'
chain 64
printf '%s' '.class C64{}'
