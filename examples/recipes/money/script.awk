# Invoices: net, 19 % tax, gross, and what each of four partners gets. A line without an amount is named and left out.
BEGIN { FS = ";" }

/^#/ { next }

!is_amount($2) {
  print "line " NR ": not an amount: " $2
  next
}

{
  net = cents($2)
  tax = at_rate(net, 1900)
  total += net + tax
  printf "%-10s %12s %10s %12s\n", $1, grouped(net), grouped(tax), grouped(net + tax)
}

END {
  printf "%-10s %36s\n", "total", grouped(total)
  for (k = 1; k <= 4; k++) printf "%-10s %36s\n", "partner " k, grouped(share(total, 4, k))
}
