# Standard input is a folder, so the first read fails.
"$1" check </
