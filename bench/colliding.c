// Writes transaction numbers that a fixed hash of four bytes puts into one place: those whose hash ends in so many zero bits. The hash
// is that of the kit's HashMap, whose seed is no secret.
//
//     colliding COUNT BITS
#include <stdint.h>
#include <stdio.h>
#include <stdlib.h>

static uint32_t hash(uint32_t number) {
    uint64_t short_read = (uint64_t)number << 32 | number;
    unsigned __int128 product = (unsigned __int128)(0x243f6a8885a308d3 ^ short_read) * (0x9e3779b97f4a7c15 ^ 8);
    uint64_t folded = (uint64_t)product ^ (uint64_t)(product >> 64);
    return (uint32_t)(folded ^ folded >> 32);
}

int main(int count_of_words, char **words) {
    if (count_of_words != 3) return 2;
    long count = atol(words[1]);
    uint32_t mask = (UINT32_C(1) << atoi(words[2])) - 1;
    for (uint64_t number = UINT32_C(1) << 30; number < UINT32_MAX && count > 0; number++) {
        if ((hash((uint32_t)number) & mask) == 0) {
            printf("%u\n", (uint32_t)number);
            count--;
        }
    }
    return count != 0;
}
