# Of each status in a web server's log: how many requests had it, and how many bytes were sent; then the busiest address.
{
  if (!($4 in requests)) {
    status[++statuses] = $4
  }
  requests[$4]++
  bytes[$4] += $5
  if (++visits[$1] > most) {
    most = visits[$1]
    address = $1
  }
}

END {
  for (i = 1; i <= statuses; i++) {
    s = status[i]
    printf "%s: %3d requests, %8d bytes\n", s, requests[s], bytes[s]
  }
  print "busiest: " address " (" most + 0 ")"
}
