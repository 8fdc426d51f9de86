{ c += gsub(/[aeiou]+/, "<&>"); b += length($0) } END { print c, b }
