. ../../pieces
printf '%s' '.profile 1;.function main($p){.declvars $q'
numbered 0 252 ',$x' ''
printf '%s' ';Nop}'
