# Prints the rules by which GNU make proves the crates below the program, each once those that it stands on are proved, and then builds the program:
#     awk -f build_rules.awk -v kit=KIT -v lanes=N docs/GATE.md crates.txt
# KIT is the folder of the Rattle kit, N how many proofs there are at a time. make runs at the top of the sources. In crates/awkwasm/out/proved there is NAME.rlib
# of each crate that is proved, and in NAME.log what the prover said. Of what can be proved next make begins with what has the longest chain of others after it,
# by the seconds that docs/GATE.md has of the first build. Towards its end few proofs can be made at a time, so each may use all processors.

FILENAME ~ /GATE.md$/ {
  count = split($0, cell, / *[|] */)
  if (count == 8 && cell[7] ~ /^[0-9]+$/) measured[cell[2]] = cell[7]
  next
}

/^[a-z]/ {
  name = $1
  sub(/:.*/, "", name)
  sub(/^[^:]*: */, "")
  libraries[name] = $0
}

# Lists a crate after those that it stands on.
function visit(name, list, count, i) {
  if (name in seen) return
  seen[name]
  count = split(libraries[name], list, " ")
  for (i = 1; i <= count; i++) if (list[i] in libraries) visit(list[i])
  order[++crates] = name
  seconds[name] = name in measured ? measured[name] : 30
}

# Finds, of each crate, the seconds of the longest chain that begins with it.
function measure(list, count, name, i, k) {
  for (k = crates; k; k--) {
    name = order[k]
    chain[name] += seconds[name]
    if (longest < chain[name]) longest = chain[name]
    count = split(libraries[name], list, " ")
    for (i = 1; i <= count; i++) if (list[i] in libraries && chain[list[i]] < chain[name]) chain[list[i]] = chain[name]
  }
}

# Puts the longest chains first.
function sort(i, k, held) {
  for (i = 2; i <= crates; i++) {
    held = order[i]
    for (k = i - 1; k && chain[order[k]] < chain[held]; k--) order[k + 1] = order[k]
    order[k + 1] = held
  }
}

# Prints how a crate is proved, by a command in its folder.
function rule(name, list, count, i, made, needs, words) {
  made = name == "awkwasm" ? "awkwasm.o" : name ".rlib/format"
  words = "--crate-name " name " src/" (name == "awkwasm" ? "main" : "lib") ".rt --extern std=" kit "/rlibs/std.rlib"
  count = split(libraries[name], list, " ")
  for (i = 1; i <= count; i++) {
    if (list[i] in libraries) needs = needs " " proved "/" list[i] ".rlib/format"
    words = words " --extern " list[i] "=" (list[i] in libraries ? beside : kit "/rlibs") "/" list[i] ".rlib"
  }
  words = words " -L dependency=" kit "/rlibs -L dependency=" beside " --links " name "="
  words = words " --antt-project " kit "/rattle/logic/antt-project.json --logic-built " kit "/logic_built"
  words = words " --jobs " (8 * chain[name] <= 3 * longest ? lanes : 1)
  if (name == "awkwasm") words = words " --backend llvm --toolchain " kit "/toolchain -o " beside "/awkwasm.o"
  else words = words " --statements -o " beside "/" name ".rlib"
  printf "%s/%s: %s/kit crates.txt $(shell find crates/%s/src crates/%s/specs crates/%s/proofs 2>/dev/null)%s\n", proved, made, proved, name, name, name, needs
  printf "\t@cd crates/%s && %s/bin/rattle build %s >%s/%s.log 2>&1 || { echo failed %s; exit 1; }\n", name, kit, words, beside, name, name
  printf "\t@echo proved %s %d\n", name, seconds[name]
  all = all " " proved "/" made
}

END {
  proved = "crates/awkwasm/out/proved"
  beside = "../awkwasm/out/proved"
  program = "crates/awkwasm/out/awkwasm"
  visit("awkwasm")
  measure()
  sort()
  print "all: " program
  for (i = 1; i <= crates; i++) rule(order[i])
  # (make begins with what stands first in this list, of what can be made)
  print program ":" all
  print "\t@" kit "/bin/rattle-link --target x86_64-unknown-linux-gnu --toolchain " kit "/toolchain -o $@ " proved "/awkwasm.o " kit "/c/libos_c.a " kit "/c/liblibc_c.a >&2"
}
