{ n[$1]++; s[$1] += $3 } END { for (k in n) t += n[k] * s[k]; print t }
