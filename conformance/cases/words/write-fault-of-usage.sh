# Standard error takes no byte.
"$1" 2>/dev/full
