# Checks the lines of a test run (the test anything protocol): which numbers are missing, which tests failed.
BEGIN { planned = -1 }

/^1\.\.[0-9]+$/ {
  planned = substr($0, 4) + 0
  next
}

/^(not )?ok / {
  number = ($1 == "not") ? $3 : $2
  result[number + 0] = ($1 == "not") ? "failed" : "passed"
  if ($0 ~ /# (todo|skip)/) {
    result[number + 0] = "left out"
  }
}

END {
  for (i = 1; i <= planned; i++) {
    if (!(i in result)) {
      print "missing: " i
      missing++
    } else if (result[i] == "failed") {
      print "failed: " i
      failed++
    } else if (result[i] == "passed") {
      passed++
    } else {
      left++
    }
  }
  print passed + 0 " passed, " failed + 0 " failed, " missing + 0 " missing, " left + 0 " left out"
  exit (planned < 0 || failed || missing) ? 1 : 0
}
