. ../../pieces
printf '.profile 1;\n.function main() {\n'
copies 65 '.try {\n'
printf 'Nop\n'
copies 65 '} .catch { Nop }\n'
printf '}\n'
