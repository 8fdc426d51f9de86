# Files of sections, keys and values (INI). Comments begin with ; or # at the begin of a line. A value may be in double quotes, which keep its spaces.

# A text without the spaces around it.
function trimmed(text) {
  gsub(/^[ \t\r]+|[ \t\r]+$/, "", text)
  return text
}

# Reads a line: 1 if it is a pair, then in Section, Key and Value; 0 if it is a section, a comment or empty; -1 if it is none of these.
function ini_line(line,    at) {
  line = trimmed(line)
  if (line == "" || line ~ /^[;#]/) return 0
  if (line ~ /^\[.*\]$/) {
    Section = trimmed(substr(line, 2, length(line) - 2))
    return 0
  }
  at = index(line, "=")
  if (at < 2) return -1
  Key = trimmed(substr(line, 1, at - 1))
  Value = trimmed(substr(line, at + 1))
  if (Value ~ /^".*"$/ && length(Value) > 1) Value = substr(Value, 2, length(Value) - 2)
  return 1
}

# The name of the pair that was read: section.key, or key before the first section.
function ini_name() {
  return (Section == "" ? "" : Section ".") Key
}
