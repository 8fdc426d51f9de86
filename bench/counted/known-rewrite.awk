{ $2 = $1; $5 = NR; print }
