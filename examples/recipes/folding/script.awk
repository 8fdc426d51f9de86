# Sets paragraphs in a column of 34 bytes, with a mark before each line, under a title in the middle.
BEGIN { RS = "" }

NR == 1 {
  print "[" in_middle($0, 34) "]"
  next
}

{ print folded($0, 34, "| ") }

END {
  print "[" at_left("end", 10) "][" at_right("end", 10) "]"
  print cut_every("0123456789abcdef", 6)
}
