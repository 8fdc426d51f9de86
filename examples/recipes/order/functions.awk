# An order in which each item comes after those that it needs.

# Notes that an item needs another one first.
function needs(item, first) {
  add_item(item)
  add_item(first)
  if ((item, first) in Needed) return
  Needed[item, first]
  Next[first, ++Nexts[first]] = item
  Waits[item]++
}

# Notes an item, which may need none.
function add_item(item) {
  if (item in Waits) return
  Waits[item] = 0
  Item[++Items] = item
}

# Puts the items into order[1], order[2] .. and gives their number: less than Items if some need one another in a circle.
function in_order(order,    n, i, k, next_one) {
  for (i = 1; i <= Items; i++) if (Waits[Item[i]] == 0) order[++n] = Item[i]
  for (i = 1; i <= n; i++) {
    for (k = 1; k <= Nexts[order[i]]; k++) {
      next_one = Next[order[i], k]
      if (--Waits[next_one] == 0) order[++n] = next_one
    }
  }
  return n + 0
}

# After in_order: items that need one another in a circle, as "a > b > a", where a needs b; "" where there is no circle.
function circle(    item, seen, text) {
  if ((item = waiting_item()) == "") return ""
  for (; !(item in seen); item = waiting_need(item)) seen[item]
  text = item
  do {
    seen[item] = "told"
    item = waiting_need(item)
    text = text " > " item
  } while (seen[item] != "told")
  return text
}

# The first item that still waits for another one; "" if none does.
function waiting_item(    i) {
  for (i = 1; i <= Items; i++) if (Waits[Item[i]] > 0) return Item[i]
  return ""
}

# The first item that a waiting item still waits for.
function waiting_need(item,    i) {
  for (i = 1; i <= Items; i++) if (Waits[Item[i]] > 0 && (item, Item[i]) in Needed) return Item[i]
}
