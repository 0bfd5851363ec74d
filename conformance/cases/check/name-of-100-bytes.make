. ../../pieces
printf '.profile 1;\n.function '
copies 100 n
printf '() { Null RetC }\n'
