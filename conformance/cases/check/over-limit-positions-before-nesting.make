. ../../pieces
printf '%s' '.profile 1;.function main(){'
nested 65 'Nop'
copies 65536 'Nop '
printf '%s' '}'
