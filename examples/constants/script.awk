# Strings and constant whole numbers up to the greatest.
BEGIN {
  print "seconds in a day", 24 * 60 * 60
  print "minutes in a leap year", 366 * 24 * 60
  print "greatest whole number", 9007199254740991 + 1
}
