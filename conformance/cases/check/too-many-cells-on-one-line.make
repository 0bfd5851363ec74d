. ../../pieces
printf '%s' '.profile 1;.function main(){.declvars $q'
numbered 1 254 ',$v' ''
printf '%s' ';'
copies 3905 'Nop '
printf '%s' 'Null RetC}'
