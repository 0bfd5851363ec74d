. ../../pieces
printf '%s' '.profile 1;.function main(){'
nested 65 'Nop'
printf '%s' '}'
