# How often each word occurs, in the order of the first occurrences.
{
  for (i = 1; i <= NF; i++) {
    word = tolower($i)
    gsub(/[^a-z0-9']/, "", word)
    if (word != "") {
      if (!(word in count)) {
        order[++words] = word
      }
      count[word]++
    }
  }
}

END {
  for (i = 1; i <= words; i++) {
    printf "%6d %s\n", count[order[i]], order[i]
  }
  print words + 0 " words, " NR " lines"
}
