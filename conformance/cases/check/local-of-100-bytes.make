. ../../pieces
printf '.profile 1;.function f($'
copies 100 n
printf '){Null RetC}'
