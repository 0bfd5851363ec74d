# 200 functions of 2,002 codes each: the canonical text has 3 MB, more than a pipe holds.
awk 'BEGIN {
    codes = "Int 7 PopC "
    for (n = 0; n < 10; n++) part = part codes codes codes codes codes codes codes codes codes codes
    printf ".profile 1;"
    for (n = 0; n < 200; n++) {
        printf ".function f%d(){", n
        for (k = 0; k < 10; k++) printf "%s", part
        printf "Null RetC}"
    }
}'
