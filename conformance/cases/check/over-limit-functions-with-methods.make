. ../../pieces
printf '%s' '.profile 1;'
numbered 0 65534 '.function f' '(){}'
printf '%s' '.class A{.method m(){}}'
