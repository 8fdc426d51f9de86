# Adds partial sums: of each key, the sums of the second and the third column. What it writes are partial sums again.
{
  requests[$1] += $2
  bytes[$1] += $3
}

END {
  for (status in requests) {
    print status, requests[status], bytes[status]
  }
}
