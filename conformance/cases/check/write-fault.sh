# Standard output takes no byte.
"$1" check <constants-and-locals.hhas >/dev/full
