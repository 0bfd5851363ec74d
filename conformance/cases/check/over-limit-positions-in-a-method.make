. ../../pieces
printf '%s' '.profile 1;.class A{.method m(){'
copies 70000 'Nop '
printf '%s' '}}'
