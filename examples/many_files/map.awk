# Partial sums of a web server's log: of each status, how many requests had it and how many bytes were sent. A line that is not a record ends the run with
# status 1, and is all that is printed.
NF != 5 || $5 !~ /^[0-9]+$/ {
  print FILENAME ":" FNR ": not a record: " $0
  failed = 1
  exit 1
}

{
  requests[$4]++
  bytes[$4] += $5
}

END {
  if (failed) exit
  for (status in requests) {
    print status, requests[status], bytes[status]
  }
}
