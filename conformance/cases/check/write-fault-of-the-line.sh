# Standard error takes no byte.
"$1" check <empty-text.hhas 2>/dev/full
