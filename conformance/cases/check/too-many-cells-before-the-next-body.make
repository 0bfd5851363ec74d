. ../../pieces
printf '%s' '.profile 1;.function f($q'
numbered 1 254 ',$v' ''
printf '%s' '){'
copies 4000 'Nop '
printf '%s' 'Null RetC}.function g(){}'
