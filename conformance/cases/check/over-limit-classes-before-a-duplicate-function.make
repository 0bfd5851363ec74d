. ../../pieces
printf '%s' '.profile 1;.function f(){}.function f(){}'
numbered 0 16384 '.class C' '{}'
