. ../../pieces
printf '%s' '.profile 1;.function main($a, $b){.declvars $q'
numbered 1 253 ',$v' ''
printf '%s' ';Null RetC}'
