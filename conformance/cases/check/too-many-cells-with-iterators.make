. ../../pieces
printf '%s' '.profile 1;.function main($q'
numbered 1 254 ',$v' ''
printf '%s' '){.numiters 32;'
copies 3471 'Nop '
printf '%s' 'Null RetC}'
