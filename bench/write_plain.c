// plain NAME BITS FRAMES ready|encoded; of 16be bits it writes behind a head that is there
#include "write_numbers.h"
#include <arpa/inet.h>
#include <fcntl.h>
#include <unistd.h>
static unsigned char block[16384];
static void encode(int bits, int big, int count) {
    if (big)
        for (int i = 0; i < count; i++)
            block[2 * i] = numbers[i] >> 8, block[2 * i + 1] = numbers[i];
    else if (bits == 16)
        for (int i = 0; i < count; i++)
            block[2 * i] = numbers[i], block[2 * i + 1] = numbers[i] >> 8;
    else if (bits == 24)
        for (int i = 0; i < count; i++)
            block[3 * i] = numbers[i], block[3 * i + 1] = numbers[i] >> 8, block[3 * i + 2] = numbers[i] >> 16;
    else
        memcpy(block, numbers, 4 * count);
}
static void put(int file, const void *from, int size, off_t at) {
    if (pwrite(file, from, size, at) != size)
        exit(1);
}
int main(int count, char **words) {
    int bits = atoi(words[2]), big = !strcmp(words[2], "16be"), whole = fill(bits, bits / 8), encodes = !strcmp(words[4], "encoded"), size = whole * (bits / 8);
    int64_t all = 2 * atoll(words[3]);
    unsigned bytes = all * (bits / 8), rate = 44100, frame = 2 * (bits / 8);
    unsigned head[11] = {0x46464952, 36 + bytes, 0x45564157, 0x20746d66, 16, 0x20001, rate, rate * frame, frame | bits << 16, 0x61746164, bytes};
    unsigned big_head[6] = {0x646e732e, htonl(24), htonl(bytes), htonl(3), htonl(rate), htonl(2)};
    int file = open(words[1], O_RDWR | O_CREAT | O_TRUNC, 0666);
    off_t at = big ? 24 : 44;
    encode(bits, big, whole);
    for (int64_t i = 0; i < all / whole; i++, at += size) {
        numbers[0] = i % 128;
        encode(bits, big, encodes ? whole : 1);
        put(file, block, size, at);
    }
    put(file, block, all % whole * (bits / 8), at);
    put(file, big ? big_head : head, big ? 24 : 44, 0);
    return close(file);
}
