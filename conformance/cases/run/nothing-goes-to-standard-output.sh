# A run writes nothing to standard output, which takes no byte here.
"$1" run <constants-and-locals.hhas >/dev/full
