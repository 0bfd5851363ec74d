. ../../pieces
printf '%s' '.profile 1;.function main(){'
nested 64 'Nop'
printf '%s' '}'
