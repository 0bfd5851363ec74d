. ../../pieces
printf '.profile 1;.function main(){Null RetC}'
bytes 16777178 ' '
