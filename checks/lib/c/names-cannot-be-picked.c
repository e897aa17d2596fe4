// Prints COUNT names of eight small letters that a hash table with a fixed seed puts into one place: the low bits of
// their hashes, as many as MASK has, are zero. The hash is that of the kit's maps: each write of up to eight bytes is
// xored into the state, multiplied to 128 bits, and folded; a text is written as its length, and then byte by byte.
#include <stdint.h>
#include <stdio.h>
#include <stdlib.h>

enum { LETTERS = 26, LENGTH = 8 };
static const uint64_t MULTIPLIER = 0x9e3779b97f4a7c15u;

static uint64_t folded(uint64_t state, uint64_t word, uint64_t bytes) {
    unsigned __int128 product = (unsigned __int128)(state ^ word) * (MULTIPLIER ^ (2 * bytes));
    return (uint64_t)product ^ (uint64_t)(product >> 64);
}

static uint64_t left;
static uint32_t mask;
static char name[LENGTH + 1];

static void pick(int place, uint64_t state) {
    if (place == LENGTH) {
        if (((uint32_t)(state ^ (state >> 32)) & mask) == 0) {
            puts(name);
            left--;
        }
        return;
    }
    for (char letter = 'a'; letter < 'a' + LETTERS && left > 0; letter++) {
        name[place] = letter;
        pick(place + 1, folded(state, (uint64_t)letter * 0x10101, 1));
    }
}

int main(int count, char **words) {
    if (count != 3) {
        return 2;
    }
    left = strtoull(words[1], NULL, 0);
    mask = (uint32_t)strtoul(words[2], NULL, 0);
    pick(0, folded(0x243f6a8885a308d3u, LENGTH, 8));
    return left > 0;
}
