. ../../pieces
printf '.profile 1;\n.function main() {\n'
copies 255 '  Null\n'
copies 254 '  PopC\n'
printf '  RetC\n}\n'
