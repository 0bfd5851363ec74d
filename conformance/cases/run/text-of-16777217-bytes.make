. ../../pieces
printf '%s' '.profile 1;.function main(){Int 2 RetC}'
bytes 16777178 ' '
