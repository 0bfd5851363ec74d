# Standard input is a folder, of which nothing can be read.
"$1" check check </
