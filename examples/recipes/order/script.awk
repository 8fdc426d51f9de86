# Reads what each target needs, as "app: core net", and prints the targets in an order in which they can be built.
BEGIN { FS = "[: ]+" }

NF {
  add_item($1)
  for (i = 2; i <= NF; i++) if ($i != "") needs($1, $i)
}

END {
  n = in_order(target)
  for (i = 1; i <= n; i++) print target[i]
  if (n < Items) {
    print "in a circle: " circle()
    exit 1
  }
}
