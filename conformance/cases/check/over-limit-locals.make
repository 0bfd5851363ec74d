. ../../pieces
printf '.profile 1;\n.function main() {\n  .declvars $v'
numbered 1 255 ', $v' ''
printf ';\n  Null\n  RetC\n}\n'
