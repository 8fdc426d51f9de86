{
  print "main " $0
  print "to errors" > "/dev/stderr"
  print "to output" > "/dev/stdout"
  getline line < "/dev/stdin"
  print "named " line
  print "closed " close("/dev/stdout")
}
