. ../../pieces
printf '%s' '.profile 1;.class A{.method m($p'
numbered 1 299 ',$p' ''
printf '%s' '){Null RetC}}'
