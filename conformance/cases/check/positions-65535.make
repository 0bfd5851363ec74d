. ../../pieces
printf '%s' '.profile 1;.function main(){'
copies 65533 'Nop '
printf '%s' 'Null RetC}'
