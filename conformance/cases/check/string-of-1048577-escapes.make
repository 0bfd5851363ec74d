. ../../pieces
printf '.profile 1;.function f(){String "'
escapes 1048577
printf '" RetC}'
