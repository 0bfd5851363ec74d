. ../../pieces
printf '%s' '.profile 1;.function main(){.numiters 33;'
copies 65536 'Nop '
printf '%s' '}'
