# Temperatures in tenths of a degree: for each place the mean in tenths, rounded to whole degrees in three ways, and the spread as a root of the mean square.
{
  if (!($1 in sum)) place[++places] = $1
  count[$1]++
  sum[$1] += $2
  squares[$1] += $2 * $2
}

END {
  for (i = 1; i <= places; i++) {
    p = place[i]
    tenths = rounded(sum[p], count[p])
    print p, tenths, floor(tenths, 10), rounded(tenths, 10), rounded_even(tenths, 10), ceiling(tenths, 10), root(rounded(squares[p], count[p]))
  }
}
