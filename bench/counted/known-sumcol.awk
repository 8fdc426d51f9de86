{ s += $3 } END { print s }
