. ../../pieces
printf '%s' '.profile 1;.class A{.method m(){'
nested 66 'Nop'
printf '%s' '}}'
