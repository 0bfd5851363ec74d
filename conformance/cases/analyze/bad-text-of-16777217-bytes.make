. ../../pieces
bytes 16777217 x
