. ../../pieces
printf '%s' '.profile 1;.class A{'
numbered 0 65535 '.method m' '(){}'
printf '%s' '}'
