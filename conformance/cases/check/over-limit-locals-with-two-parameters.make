. ../../pieces
printf '.profile 1;\n.function main($a, $b) {\n  .declvars $v'
numbered 1 253 ', $v' ''
printf ';\n  Null\n  RetC\n}\n'
