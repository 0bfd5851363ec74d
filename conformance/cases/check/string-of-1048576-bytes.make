. ../../pieces
printf '%s' '.profile 1;.function f(){String "'
bytes 1048576 a
printf '%s' '" RetC}'
