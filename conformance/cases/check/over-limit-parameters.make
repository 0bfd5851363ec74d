. ../../pieces
printf '%s' '.profile 1;.function main($p'
numbered 1 255 ',$p' ''
printf '%s' '){Null RetC}'
