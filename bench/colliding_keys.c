/* Prints keys for bench/arrays, one a line: eight letters each, whose hash, by the plain hasher of the kit, begins the search in the table at the
   same place as long as the table has at most 2^BITS places to begin. colliding_keys BITS KEYS; with BITS 0 any keys. */
#include <stdint.h>
#include <stdio.h>
#include <stdlib.h>

static const uint64_t multiplier = 0x9e3779b97f4a7c15ull;
static const uint64_t initial = 0x243f6a8885a308d3ull;
static uint64_t mask;
static long wanted;
static char key[9];

static uint64_t folded(uint64_t a, uint64_t b) {
  unsigned __int128 product = (unsigned __int128)a * b;
  return (uint64_t)product ^ (uint64_t)(product >> 64);
}

static void extend(uint64_t state, int place) {
  if (place == 8) {
    if (((state ^ state >> 32) & mask) == 0) {
      printf("%s\n", key);
      if (--wanted == 0) exit(0);
    }
    return;
  }
  for (int letter = 'a'; letter <= 'z'; letter++) {
    key[place] = (char)letter;
    extend(folded(state ^ letter * 0x10101ull, multiplier ^ 2), place + 1);
  }
}

int main(int count, char **words) {
  if (count < 3) return 2;
  mask = (1ull << atoi(words[1])) - 1;
  wanted = atol(words[2]);
  extend(folded(initial ^ 8, multiplier ^ 16), 0);
  return 1;
}
