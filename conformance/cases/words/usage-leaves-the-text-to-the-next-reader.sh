# The program reads nothing, so cat gets all of standard input.
printf '.profile 1;' | { "$1" run --steps 0; status=$?; cat; exit "$status"; }
