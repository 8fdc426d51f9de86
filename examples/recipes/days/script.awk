# Loans: how long each was out, on which day of the week it came back, and when a notice would be due, 28 days after it went out.
BEGIN { split("Mon Tue Wed Thu Fri Sat Sun", name, " ") }

!is_date($2) || !is_date($3) {
  print "line " NR ": not a date: " $0
  next
}

{
  back = day_number($3)
  print $1, days_between($2, $3), name[weekday(back)], date_of(day_number($2) + 28)
}
