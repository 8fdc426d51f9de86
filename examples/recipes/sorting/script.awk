# Words with how often they occur: the most frequent first, and words of the same count in the order of texts. Then all lengths, as numbers.
{
  for (i = 1; i <= NF; i++) {
    word = tolower($i)
    gsub(/[^a-z]/, "", word)
    if (word == "") continue
    count[word]++
    lengths[++words] = length(word)
  }
}

END {
  n = keys_by_value(count, key)
  for (i = 1; i <= n && i <= 5; i++) print count[key[i]], key[i]
  n = sorted_keys(count, key)
  print "first " key[1] ", last " key[n]
  sort_numbers(lengths, words)
  for (i = 1; i <= words; i++) line = line " " lengths[i]
  print "lengths" line
  reverse(lengths, words)
  print "longest " lengths[1]
}
