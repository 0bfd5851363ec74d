. ../../pieces
printf '%s' '.profile 1;'
chain 70
printf '%s' '.class C70 extends C69{}'
