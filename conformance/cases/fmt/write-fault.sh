# Standard output takes no byte.
"$1" fmt <profile-alone.hhas >/dev/full
