. ../../pieces
printf '%s' '.profile 1;.function main($a,$a){'
nested 65 'Nop'
printf '%s' '}'
