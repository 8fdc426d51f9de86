# Votes by party, with their parts of all valid votes, and the change since the last time.
NR > 1 {
  party[++parties] = $1
  votes[parties] = $2
  before[parties] = $3
  all += $2
  all_before += $3
}

END {
  for (i = 1; i <= parties; i++) {
    printf "%-8s %9d %7s %% %8s\n", party[i], votes[i], percent(votes[i], all, 2), percent(votes[i] - before[i], before[i], 1)
  }
  printf "%-8s %9d %7s %% %8s\n", "all", all, percent(all, all, 2), percent(all - all_before, all_before, 1)
}
