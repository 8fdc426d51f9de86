# The sum of the second column, its greatest number, and the line it stands on. Lines that begin with # are comments.
/^#/ { next }

NF >= 2 {
  sum += $2
  if (lines == 0 || $2 > most) {
    most = $2
    name = $1
  }
  lines++
}

END {
  if (lines == 0) {
    print "no lines"
    exit 1
  }
  print "sum", sum
  print "greatest", most, "(" name ")"
  print "mean", int(sum / lines), "rest", sum % lines
}
