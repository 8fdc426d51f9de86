/error/ && $3 > 500 { n++; b += length($0) } END { print n, b }
