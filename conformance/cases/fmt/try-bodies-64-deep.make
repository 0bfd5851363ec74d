# Try bodies of 64 levels.
. ../../pieces
printf '.profile 1;\n.function main() {\n'
copies 64 '.try {\n'
printf 'Nop\n'
copies 64 '} .catch { Nop }\n'
printf '}\n'
