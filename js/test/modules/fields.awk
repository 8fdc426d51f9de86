# fields are set one at a time, and given up so
{
  for (i = 1; i <= NF; i++) $i = $i + 1
  while (NF > 1) NF = NF - 1
  print
}
