# Sorting, in time that grows as n log n whatever the order is. Equal members keep their order.

# Sorts list[1] to list[n] as texts, byte by byte.
function sort_texts(list, n,    i) {
  for (i = 1; i <= n; i++) list[i] = list[i] ""
  merge_sort(list, n)
}

# Sorts list[1] to list[n] as numbers.
function sort_numbers(list, n,    i) {
  for (i = 1; i <= n; i++) list[i] += 0
  merge_sort(list, n)
}

# Turns list[1] to list[n] round: after a sort, from the greatest to the least.
function reverse(list, n,    i, kept) {
  for (i = 1; i <= n - i; i++) {
    kept = list[i]
    list[i] = list[n + 1 - i]
    list[n + 1 - i] = kept
  }
}

# Puts the keys of an array into keys[1], keys[2] .. in the order of texts, and gives their number.
function sorted_keys(array, keys,    n, k) {
  for (k in array) keys[++n] = k
  sort_texts(keys, n)
  return n + 0
}

# The same by the numbers that are the array's values, the greatest first, and keys of equal values in the order of texts.
function keys_by_value(array, keys,    n, i, rank) {
  n = sorted_keys(array, keys)
  for (i = 1; i <= n; i++) rank[i] = -array[keys[i]]
  merge_sort_by(rank, keys, n)
  return n
}

# Sorts list[1] to list[n], as numbers where they are numbers and as texts where they are texts.
function merge_sort(list, n,    i, own) {
  for (i = 1; i <= n; i++) own[i] = list[i]
  merge_sort_by(own, list, n)
}

# Sorts list[1] to list[n] by the ranks that rank[1] to rank[n] give their members: merges runs of 1, 2, 4 .. members.
function merge_sort_by(rank, list, n,    width, low, ranks, members) {
  for (width = 1; width < n; width *= 2) {
    for (low = 1; low + width <= n; low += 2 * width) merge(rank, list, low, low + width, low + 2 * width > n ? n + 1 : low + 2 * width, ranks, members)
  }
}

# Merges the sorted runs from low on, below middle, and from middle on, below high.
function merge(rank, list, low, middle, high, ranks, members,    i, j, k) {
  for (i = low; i < middle; i++) {
    ranks[i] = rank[i]
    members[i] = list[i]
  }
  i = low
  j = middle
  for (k = low; i < middle; k++) {
    if (j < high && rank[j] < ranks[i]) {
      rank[k] = rank[j]
      list[k] = list[j++]
    } else {
      rank[k] = ranks[i]
      list[k] = members[i++]
    }
  }
}
