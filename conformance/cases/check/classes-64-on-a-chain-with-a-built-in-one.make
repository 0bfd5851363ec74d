. ../../pieces
printf '%s' '.profile 1;'
chain 62
printf '%s' '.class C62 extends Exception{}'
