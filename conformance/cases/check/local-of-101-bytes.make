. ../../pieces
printf '.profile 1;.function f($'
copies 101 n
printf '){Null RetC}'
