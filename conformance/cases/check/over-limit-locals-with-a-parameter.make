. ../../pieces
printf '%s' '.profile 1;.function main($p){.declvars $q'
numbered 0 253 ',$x' ''
printf '%s' ';Nop}'
