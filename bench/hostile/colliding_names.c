/* Prints names whose hashes begin a look-up at one place, for the benchmark of hostile inputs.

       colliding_names COUNT BITS

   Maps of few names hash without a seed, as `gsi_word::Name` and `std::hash::FoldHasher` define it: a name of eight
   bytes is one number, which is multiplied once. This program finds names for which the lowest BITS bits of the 32
   that a map uses are zero. Names have eight letters and digits, beginning with a letter, so that each is its own
   reduced form. */
#include <stdint.h>
#include <stdio.h>
#include <stdlib.h>

#define LENGTH 8

static const char ALPHABET[] = "ABCDEFGHIJKLMNOPQRSTUVWXYZabcdefghijklmnopqrstuvwxyz0123456789";
static const uint64_t SEED = 0x243f6a8885a308d3u;
static const uint64_t MULTIPLIER = 0x9e3779b97f4a7c15u;

static unsigned long wanted;
static uint32_t mask;
static char name[LENGTH + 1];

static uint64_t folded(uint64_t a, uint64_t b)
{
    unsigned __int128 product = (unsigned __int128)a * b;
    return (uint64_t)product ^ (uint64_t)(product >> 64);
}

static void extend(uint64_t read, int place)
{
    if (place == LENGTH) {
        uint64_t state = folded(SEED ^ read, MULTIPLIER ^ (2 * LENGTH));
        if (((uint32_t)(state ^ (state >> 32)) & mask) == 0) {
            puts(name);
            wanted--;
        }
        return;
    }
    for (const char *byte = ALPHABET; *byte != '\0' && wanted > 0; byte++) {
        if (place == 0 && byte - ALPHABET >= 52)
            return;
        name[place] = *byte;
        extend(read | (uint64_t)(unsigned char)*byte << (8 * place), place + 1);
    }
}

int main(int count, char **words)
{
    if (count != 3)
        return 3;
    wanted = strtoul(words[1], NULL, 10);
    mask = (uint32_t)((1ull << strtoul(words[2], NULL, 10)) - 1);
    extend(0, 0);
    return wanted > 0;
}
