# Standard output takes no byte.
"$1" analyze <constants-and-locals.hhas >/dev/full
