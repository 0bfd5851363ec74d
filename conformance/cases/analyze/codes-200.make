. ../../pieces
printf '%s' '.profile 1;.function main(){'
copies 99 'Null PopC '
printf '%s' 'Null RetC}'
