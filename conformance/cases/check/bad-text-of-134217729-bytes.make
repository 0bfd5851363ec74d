. ../../pieces
bytes 134217729 x
