# Of each request the lines between its start and its end where an error stands among them, and how many requests there were.
/^start /, /^end / {
  if ($1 == "start") {
    request = $2
    text = ""
    bad = 0
  }
  text = text $0 "\n"
  if ($1 == "error") {
    bad = 1
  }
  if ($1 == "end") {
    requests++
    if (bad) {
      failed++
      printf "== %s\n%s", request, text
    }
  }
}

END {
  print requests + 0 " requests, " failed + 0 " failed"
}
