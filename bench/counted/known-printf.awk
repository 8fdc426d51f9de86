{ printf "%-12s|%8d|%x\n", $1, $3, NR }
