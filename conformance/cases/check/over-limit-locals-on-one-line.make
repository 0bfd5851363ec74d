. ../../pieces
printf '%s' '.profile 1;.function main(){.declvars $q'
numbered 1 255 ',$v' ''
printf '%s' ';Null RetC}'
