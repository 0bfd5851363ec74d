. ../../pieces
printf '%s' '.profile 1;.function main(){True JmpZ L '
copies 256 'Null '
printf '%s' 'L: Null RetC}'
