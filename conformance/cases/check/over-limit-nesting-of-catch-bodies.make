. ../../pieces
printf '%s' '.profile 1;.function main(){'
copies 65 '.try{Nop}.catch{'
printf '%s' 'Nop'
copies 65 '}'
printf '%s' '}'
