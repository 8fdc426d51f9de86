# Quotients and percentages with decimals, for an awk of whole numbers. Half a unit is rounded away from 0.

# p / q with so many decimals, as a text: quotient(-2, 3, 2) is -0.67. The divisor is at most 900,719,925,474,099 in size, and the decimals are at most 15.
function quotient(p, q, decimals,    below, whole, rest, fraction, unit, i) {
  below = (p + 0 < 0) != (q + 0 < 0)
  q = without_sign(q)
  whole = int(without_sign(p) / q)
  rest = without_sign(p) % q
  fraction = 0
  unit = 1
  for (i = 0; i < decimals; i++) {
    rest *= 10
    fraction = 10 * fraction + int(rest / q)
    rest %= q
    unit *= 10
  }
  if (rest >= q - rest && ++fraction == unit) {
    fraction = 0
    whole++
  }
  return (below && whole + fraction > 0 ? "-" : "") whole (decimals > 0 ? sprintf(".%0" decimals "d", fraction) : "")
}

# A number's size.
function without_sign(n) {
  return n + 0 < 0 ? -n : n + 0
}

# How many per cent of the whole a part is, with so many decimals; "-" if the whole is 0.
function percent(part, whole, decimals) {
  return whole + 0 == 0 ? "-" : quotient(100 * part, whole, decimals)
}
