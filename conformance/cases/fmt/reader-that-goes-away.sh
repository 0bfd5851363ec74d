# Standard output is closed after 10 bytes of 3 MB: the program ends, by a write fault.
sh ./longer-than-a-pipe-holds.make | {
    "$1" fmt
    echo "status $?" >&2
} | head -c 10
