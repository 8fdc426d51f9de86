# Days of the calendar of today, which is taken to hold at any time (proleptic Gregorian). Day 0 is 1970-01-01.

# Whether a text is a day of the calendar, as 2024-02-29.
function is_date(text,    part) {
  if (text !~ /^[0-9][0-9][0-9][0-9]-[0-9][0-9]-[0-9][0-9]$/) return 0
  split(text, part, "-")
  return part[2] >= 1 && part[2] <= 12 && part[3] >= 1 && part[3] <= days_in_month(part[1], part[2])
}

# Whether a year has a 29th of February.
function is_leap_year(year) {
  return year % 4 == 0 && year % 100 != 0 || year % 400 == 0
}

# How many days a month has.
function days_in_month(year, month) {
  return month == 2 ? 28 + is_leap_year(year) : 30 + (month + (month > 7)) % 2
}

# The number of a day: day_number("1970-01-02") is 1.
function day_number(date,    part, year) {
  split(date, part, "-")
  year = part[1] - (part[2] <= 2)
  return 365 * year + floored(year, 4) - floored(year, 100) + floored(year, 400) + int((153 * ((part[2] + 9) % 12) + 2) / 5) + part[3] - 719469
}

# The greatest whole number that is at most p / n, of a positive n.
function floored(p, n) {
  return int((p - (p % n + n) % n) / n)
}

# The day of a number: date_of(-1) is 1969-12-31.
function date_of(number,    era, day, year, month) {
  number += 719468
  era = floored(number, 146097)
  day = number - 146097 * era
  year = int((day - int(day / 1460) + int(day / 36524) - int(day / 146096)) / 365)
  day -= 365 * year + int(year / 4) - int(year / 100)
  month = int((5 * day + 2) / 153)
  day -= int((153 * month + 2) / 5)
  return sprintf("%04d-%02d-%02d", year + 400 * era + (month >= 10), month < 10 ? month + 3 : month - 9, day + 1)
}

# How many days lie between two dates: days_between("2024-02-28", "2024-03-01") is 2.
function days_between(from, to) {
  return day_number(to) - day_number(from)
}

# The day of the week of a number: 1 is Monday, 7 is Sunday.
function weekday(number) {
  return ((number + 3) % 7 + 7) % 7 + 1
}
