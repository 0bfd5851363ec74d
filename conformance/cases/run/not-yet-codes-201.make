. ../../pieces
printf '.profile 1;.function main(){.declvars $x;'
copies 99 'Null PopC '
printf 'Null SetL $x RetC}'
