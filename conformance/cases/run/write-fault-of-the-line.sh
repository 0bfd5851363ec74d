# Standard error takes no byte.
"$1" run <constants-and-locals.hhas 2>/dev/full
