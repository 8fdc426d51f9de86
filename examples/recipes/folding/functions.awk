# Texts in lines of at most so many bytes.

# A text in lines of at most width bytes, cut at spaces, each with the same text before it; a longer word has a line of its own.
function folded(text, width, before,    n, i, word, line, lines) {
  n = split(text, word, " ")
  line = before word[1]
  for (i = 2; i <= n; i++) {
    if (length(line) + 1 + length(word[i]) <= width) {
      line = line " " word[i]
    } else {
      lines = lines line "\n"
      line = before word[i]
    }
  }
  return lines line
}

# A text cut into lines of exactly width bytes, but for the last one.
function cut_every(text, width,    lines) {
  for (; length(text) > width; text = substr(text, width + 1)) lines = lines substr(text, 1, width) "\n"
  return lines text
}

# n spaces; none where n is not positive.
function spaces(n,    text) {
  while (length(text) < n) text = text " "
  return text
}

# A text with spaces after it, up to width bytes.
function at_left(text, width) {
  return text spaces(width - length(text))
}

# A text with spaces before it, up to width bytes.
function at_right(text, width) {
  return spaces(width - length(text)) text
}

# A text with spaces around it, up to width bytes; an odd space goes after it.
function in_middle(text, width) {
  return at_left(spaces(int((width - length(text)) / 2)) text, width)
}
