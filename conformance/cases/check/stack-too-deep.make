. ../../pieces
printf '.profile 1;\n.function main() {\n'
copies 256 '  Null\n'
copies 255 '  PopC\n'
printf '  RetC\n}\n'
