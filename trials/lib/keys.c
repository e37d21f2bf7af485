/* Prints names of eight letters and digits whose hashes by a hasher with a fixed seed end in the same twelve bits.
 * The hasher multiplies by a constant and folds the halves of the product. It is the default hasher of maps here.
 * Arguments: how many names, whether the length is hashed before the bytes (1) or not (0), and the number of digits
 * of the names: 36, or 16 for hexadecimal names. */
#include <inttypes.h>
#include <stdio.h>
#include <stdlib.h>
#include <string.h>

static const uint64_t MULTIPLIER = UINT64_C(0x9e3779b97f4a7c15), SEED = UINT64_C(0x243f6a8885a308d3);

static uint64_t folded(uint64_t a, uint64_t b) {
    unsigned __int128 product = (unsigned __int128)a * b;
    return (uint64_t)product ^ (uint64_t)(product >> 64);
}

int main(int count, char **words) {
    if (count != 4) return 4;
    long wanted = atol(words[1]);
    uint64_t state = atoi(words[2]) ? folded(SEED ^ 8, MULTIPLIER ^ 16) : SEED;
    unsigned digits = (unsigned)atoi(words[3]);
    for (uint64_t number = 0; wanted > 0; number++) {
        char name[9] = "00000000";
        uint64_t rest = number, bytes;
        for (int i = 7; i >= 0; i--, rest /= digits) name[i] = (digits == 16 ? "0123456789abcdef" : "0123456789ABCDEFGHIJKLMNOPQRSTUVWXYZ")[rest % digits];
        memcpy(&bytes, name, 8);
        if ((folded(state ^ bytes, MULTIPLIER ^ 16) & 0xfff) == 0xabc) {
            puts(name);
            wanted--;
        }
    }
    return 0;
}
