. ../../pieces
printf '%s' '.profile 1;.function main(){'
copies 256 'Null '
copies 255 'PopC '
printf '%s' 'RetC}'
