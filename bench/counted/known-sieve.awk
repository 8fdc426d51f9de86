BEGIN { for (i = 2; i <= n; i++) if (!(i in x)) { c++; for (j = i + i; j <= n; j += i) x[j] = 1 } print c }
