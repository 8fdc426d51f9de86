# Amounts of money in cents: whole numbers, so that sums are exact.

# Whether a text is an amount, as 12, 12.5, -1,234.50 or +.05.
function is_amount(text) {
  return text ~ /^[-+]?([0-9]+|[0-9][0-9]?[0-9]?(,[0-9][0-9][0-9])+)?(\.[0-9][0-9]?)?$/ && text ~ /[0-9]/
}

# The cents of an amount: cents("-1,234.5") is -123450.
function cents(text,    sign, parts) {
  sign = text ~ /^-/ ? -1 : 1
  gsub(/[-+,]/, "", text)
  split(text, parts, ".")
  return sign * (100 * parts[1] + substr(parts[2] "00", 1, 2))
}

# The amount that n cents are: amount(-5) is -0.05.
function amount(n,    size) {
  size = n + 0 < 0 ? -n : n + 0
  return (n + 0 < 0 ? "-" : "") sprintf("%d.%02d", int(size / 100), size % 100)
}

# The same with commas between thousands: grouped(-123450) is -1,234.50.
function grouped(n,    text, sign, groups) {
  text = amount(n)
  sign = sub(/^-/, "", text) ? "-" : ""
  groups = substr(text, length(text) - 2)
  text = substr(text, 1, length(text) - 3)
  for (; length(text) > 3; text = substr(text, 1, length(text) - 3)) groups = "," substr(text, length(text) - 2) groups
  return sign text groups
}

# Part k, from 1 on, of n cents in so many parts, which are as equal as can be and add up to n: of 100 in 3 parts 34, 33 and 33.
function share(n, parts, k,    rest) {
  rest = n % parts
  return int(n / parts) + (k + 0 <= rest) - (k + 0 <= -rest)
}

# A rate of n cents, half a cent rounded away from 0; the rate is in hundredths of a per cent, so 19 % is 1900.
function at_rate(n, rate,    size) {
  size = n * rate
  return int((size < 0 ? size - 5000 : size + 5000) / 10000)
}
