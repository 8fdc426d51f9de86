# Quotients that are rounded to whole numbers, and means. In all of them q is not 0, and nothing larger than p and q is computed.

# The greatest whole number that is at most p / q.
function floor(p, q) {
  return int(p / q) - (p % q != 0 && is_below(p, q))
}

# The least whole number that is at least p / q.
function ceiling(p, q) {
  return int(p / q) + (p % q != 0 && !is_below(p, q))
}

# What is left of p below a multiple of q, with the sign of q: modulo(-7, 3) is 2, where -7 % 3 is -1.
function modulo(p, q,    rest) {
  rest = p % q
  return rest != 0 && is_below(rest, q) ? rest + q : rest
}

# Which side of a half the rest of p / q is on: -1 below, 0 at it, 1 above.
function half(p, q,    rest) {
  rest = p % q
  rest = rest < 0 ? -rest : rest
  q = q + 0 < 0 ? -q : q + 0
  return rest < q - rest ? -1 : rest > q - rest
}

# The whole number next to p / q; a half goes away from 0.
function rounded(p, q) {
  return half(p, q) < 0 ? int(p / q) : away(p, q)
}

# The whole number next to p / q; a half goes to the even one.
function rounded_even(p, q) {
  return half(p, q) < 0 || half(p, q) == 0 && int(p / q) % 2 == 0 ? int(p / q) : away(p, q)
}

# The whole number after p / q, seen from 0.
function away(p, q) {
  return int(p / q) + (is_below(p, q) ? -1 : 1)
}

# Whether p / q is below 0, for a p that is not 0.
function is_below(p, q) {
  return (p + 0 < 0) != (q + 0 < 0)
}

# The multiple of step that is next to n; a half goes away from 0.
function rounded_to(n, step) {
  return rounded(n, step) * step
}

# The mean of list[1] to list[n], rounded to a whole number; "-" where n is 0.
function mean(list, n,    sum, i) {
  for (i = 1; i <= n; i++) sum += list[i]
  return n + 0 == 0 ? "-" : rounded(sum, n)
}

# The greatest whole number whose square is at most n, which is not negative.
function root(n,    low, high, middle) {
  low = 0
  high = 94906266
  while (low + 1 < high) {
    middle = int((low + high) / 2)
    if (middle * middle <= n) low = middle
    else high = middle
  }
  return low
}
