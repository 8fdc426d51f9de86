# A report from lines of comma-separated values: region, product, pieces, price in cents.
BEGIN {
  FS = ","
  OFS = " | "
}

NR == 1 { next }

{
  revenue = $3 * $4
  by_region[$1] += revenue
  pieces[$1] += $3
  total += revenue
  if (!($1 in seen)) {
    seen[$1] = 1
    region[++regions] = $1
  }
}

function money(cents) {
  return sprintf("%d.%02d", int(cents / 100), cents % 100)
}

END {
  print "region", "pieces", "revenue"
  for (i = 1; i <= regions; i++) {
    print region[i], pieces[region[i]], money(by_region[region[i]])
  }
  print "all", "", money(total)
}
