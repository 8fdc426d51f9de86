{ for (i = 1; i <= NF; i++) n[$i]++ } END { for (w in n) k++; print k, n["the"] }
