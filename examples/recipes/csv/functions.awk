# Comma-separated values with quotes, as RFC 4180 has them: a quoted field may hold commas, line ends and doubled quotes.

# Splits a line into fields[1], fields[2] .. and gives their number, or -1 if a quote is still open at its end.
function csv_split(line, fields,    n, field) {
  delete fields
  sub(/\r$/, "", line)
  do {
    field = ""
    if (match(line, /^"([^"]|"")*"/)) {
      field = substr(line, 2, RLENGTH - 2)
      line = substr(line, RLENGTH + 1)
      gsub(/""/, "\"", field)
    }
    if (line ~ /^"/) return -1
    match(line, /^[^,]*/)
    fields[++n] = field substr(line, 1, RLENGTH)
    line = substr(line, RLENGTH + 1)
  } while (sub(/^,/, "", line))
  return n
}

# Splits the record at hand, and reads on where a quoted field goes over several lines; gives the number of fields, or -1 if the input ends within quotes.
function csv_record(fields,    line, n) {
  line = $0
  while ((n = csv_split(line, fields)) < 0 && (getline) > 0) line = line "\n" $0
  return n
}

# A text as a field: in quotes where it has to be.
function csv_field(text) {
  if (text !~ /[",\r\n]|^ | $/) return text
  gsub(/"/, "\"\"", text)
  return "\"" text "\""
}

# fields[1] to fields[n] as a line.
function csv_line(fields, n,    line, i) {
  for (i = 1; i <= n; i++) line = line (i > 1 ? "," : "") csv_field(fields[i])
  return line
}
