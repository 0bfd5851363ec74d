. ../../pieces
printf '%s' '.profile 1;.function main(){'
copies 65534 'Nop '
printf '%s' 'Null RetC}'
