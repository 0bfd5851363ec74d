. ../../pieces
printf '.profile 1;.function f(){String "'
bytes 1048577 a
printf '" RetC}'
