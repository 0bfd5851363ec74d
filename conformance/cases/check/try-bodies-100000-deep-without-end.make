. ../../pieces
printf '.profile 1;.function f(){'
copies 100000 '.try{'
