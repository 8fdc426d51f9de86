function half(n) {
  return n / 2
}

# the second record of the test is odd
{ print half($1) }
