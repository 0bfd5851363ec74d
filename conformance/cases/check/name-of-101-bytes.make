. ../../pieces
printf '.profile 1;\n.function '
copies 101 n
printf '() { Null RetC }\n'
