/* Prints names of eight bytes that a hash table of the kit's indexmap puts at one place: those whose hash ends in so many
   zero bits. The hash has a fixed seed: of a slice it takes the length, as eight bytes, and then the bytes, one by one.
   The two constants and the steps are those of the kit's core/src/hash/fold.rt.
   usage: colliding COUNT BITS */
#include <stdint.h>
#include <stdio.h>
#include <stdlib.h>

#define MULTIPLIER 0x9e3779b97f4a7c15ULL
#define SEED 0x243f6a8885a308d3ULL
#define LENGTH 8
#define FIRST 33
#define LAST 126

static uint64_t folded(uint64_t a, uint64_t b)
{
    unsigned __int128 product = (unsigned __int128)a * b;
    return (uint64_t)product ^ (uint64_t)(product >> 64);
}

static uint64_t with_byte(uint64_t state, uint64_t byte)
{
    return folded(state ^ (byte | byte << 8 | byte << 16), MULTIPLIER ^ 2);
}

static unsigned char name[LENGTH + 1];
static long left;
static uint32_t mask;

static void extend(int at, uint64_t state)
{
    for (int byte = FIRST; byte <= LAST && left > 0; byte++) {
        if (at == 0 && byte == '*')
            continue;
        name[at] = (unsigned char)byte;
        uint64_t next = with_byte(state, (uint64_t)byte);
        if (at + 1 < LENGTH) {
            extend(at + 1, next);
        } else if (((uint32_t)(next ^ next >> 32) & mask) == 0) {
            puts((char *)name);
            left--;
        }
    }
}

int main(int count, char **words)
{
    if (count != 3) {
        fputs("usage: colliding COUNT BITS\n", stderr);
        return 2;
    }
    left = atol(words[1]);
    mask = (1u << atoi(words[2])) - 1;
    extend(0, folded(SEED ^ LENGTH, MULTIPLIER ^ 16));
    return 0;
}
