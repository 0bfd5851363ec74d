. ../../pieces
printf '%s' '.profile 1;.function main(){'
copies 255 'Null '
copies 254 'PopC '
printf '%s' 'RetC}'
