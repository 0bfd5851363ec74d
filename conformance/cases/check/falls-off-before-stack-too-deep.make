. ../../pieces
printf '%s' '.profile 1;.function main(){'
copies 256 'Null '
printf '%s' '}'
