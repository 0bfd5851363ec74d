. ../../pieces
printf '%s' '.profile 1;.function main(){.declvars $q'
numbered 0 253 ',$v' ''
printf '%s' ';.numiters 1;L: '
copies 3920 'Nop '
printf '%s' 'Null IterInit 0 V:$q L Jmp L}'
