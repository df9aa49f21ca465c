#include <stdint.h>
#include <stdlib.h>
#include <string.h>
// the numbers of a block as write_bench makes them, and how many there are
static int numbers[16384];
static int fill(int bits, int bytes) {
    uint32_t state = 1;
    int count = 16384 / bytes / 2 * 2;
    for (int i = 0; i < count; i++) {
        state = state * 1664525 + 1013904223;
        numbers[i] = (int32_t)state >> (32 - bits);
    }
    return count;
}
