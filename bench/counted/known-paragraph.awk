BEGIN { RS = ""; FS = "\n" } { f += NF; b += length($1) } END { print NR, f, b }
