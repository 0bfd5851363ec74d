. ../../pieces
printf '%s' '.profile 1;.function f(){String "'
escapes 1048576
printf '%s' '" RetC}'
