/* The loops of bench/modules in C, a million turns a call: which one is the first argument, how many millions of turns the second. */
#include <stdint.h>
#include <stdio.h>
#include <stdlib.h>

static volatile uint32_t memory[16];
static volatile uint32_t told;

__attribute__((noinline)) static uint32_t next(uint32_t n) {
    __asm__ volatile("");
    return n + 1;
}

__attribute__((noinline)) static uint32_t twice(uint32_t n) {
    told += n;
    return n * 2;
}

int main(int count, char **words) {
    if (count < 3) return 1;
    uint64_t turns = strtoull(words[2], 0, 10) * 1000000;
    volatile uint32_t local = 0;
    for (uint64_t i = 0; i < turns; i++) {
        switch (words[1][0]) {
            case 'c': local = local - 1; (void)(local + local); break;
            case 'm': memory[2] = memory[2] + 1; memory[4] = memory[2]; break;
            case 'f': next(8); break;
            case 'h': twice(8); break;
        }
    }
    printf("%u\n", local);
    return 0;
}
