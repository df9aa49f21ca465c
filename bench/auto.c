#include <fcntl.h>
#include <stdlib.h>
#include <string.h>
#include <unistd.h>
static int file;
static int (*sync_file)(int);
static void put_size(unsigned value, off_t at) {
    unsigned char bytes[4] = {value, value >> 8, value >> 16, value >> 24};
    if (pwrite(file, bytes, 4, at) != 4 || sync_file(file) != 0)
        exit(3);
}
static void put_sizes(unsigned size) {
    if (sync_file(file) != 0)
        exit(3);
    put_size(size, 40);
    put_size(36 + size, 4);
}
/* NAME fsync|fdatasync APPENDS: each append is 400 bytes that count up */
int main(int count, char **words) {
    unsigned char bytes[400];
    unsigned size = 0;
    file = open(words[1], O_RDWR);
    sync_file = strcmp(words[2], "fsync") == 0 ? fsync : fdatasync;
    for (int i = 0; i < 400; i++)
        bytes[i] = i % 4 == 0 ? i / 4 : 0;
    put_sizes(size);
    for (int left = atoi(words[3]); left > 0; left--) {
        if (pwrite(file, bytes, 400, 44 + size) != 400)
            return 3;
        size += 400;
        put_sizes(size);
        if (write(1, "ok 100\n", 7) != 7)
            return 3;
    }
    put_sizes(size);
    return close(file);
}
