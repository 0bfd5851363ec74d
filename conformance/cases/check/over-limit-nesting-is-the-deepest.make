. ../../pieces
printf '%s' '.profile 1;.function main(){'
nested 66 'Nop'
nested 10000 'Nop'
nested 67 'Nop'
printf '%s' '}'
