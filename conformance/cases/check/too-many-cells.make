. ../../pieces
printf '.profile 1;\n.function main() {\n'
printf '  .declvars $v'
numbered 1 254 ', $v' ''
printf ';\n'
copies 3905 '  Nop\n'
printf '  Null\n  RetC\n}\n'
