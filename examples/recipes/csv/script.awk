# Counts what customers ordered, from a file that a spreadsheet wrote, and prints it as comma-separated values again.
{
  n = csv_record(field)
  if (n != 4) {
    print "record up to line " NR ": " (n < 0 ? "a quote is open" : n " fields")
    next
  }
  if (NR == 1) next
  row[1] = field[2]
  row[2] = field[1]
  row[3] = field[3] * 2
  row[4] = field[4]
  print csv_line(row, 4)
  lines += gsub(/\n/, "", field[4]) + 1
}

END { print lines " lines of remarks" }
