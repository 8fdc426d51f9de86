# Prints each pair of a file of settings as one line, and names the other lines, but for comments and sections.
{
  kind = ini_line($0)
  if (kind > 0) print ini_name() "=" Value
  if (kind < 0) print "line " NR ": not a pair: " $0
}
