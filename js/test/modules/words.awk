BEGIN {
  printf "[%s]", FS
  for (i = 0; i < ARGC; i++) printf " %d %s", i, ARGV[i]
  print ""
}
