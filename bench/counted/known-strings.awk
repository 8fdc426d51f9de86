BEGIN { for (i = 0; i < n; i++) { s = s "x"; if (length(s) > 1000) s = substr(s, 500) } print length(s) }
