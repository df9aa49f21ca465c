#include <sndfile.h>
#include <stdio.h>
#include <unistd.h>
static short block[2048];
static char page[1 << 16];
static size_t used;
static void flush(void) {
    for (size_t done = 0; done < used;)
        done += write(1, page + done, used - done);
    used = 0;
}
static void put(int value) {
    char digits[12];
    int at = 12;
    unsigned left = value < 0 ? -(unsigned)value : value;
    do
        digits[--at] = '0' + left % 10;
    while (left /= 10);
    if (value < 0)
        digits[--at] = '-';
    while (at < 12)
        page[used++] = digits[at++];
}
int main(int count, char **words) {
    SF_INFO info = {0};
    SNDFILE *file = sf_open(words[1], SFM_READ, &info);
    printf("ok %ld %d %d wave pcm_16_le\n", (long)info.frames, info.channels, info.samplerate);
    fflush(stdout);
    for (sf_count_t n = 1, whole = 1024; whole == 1024;) {
        n = whole = sf_readf_short(file, block, 1024);
        page[used++] = 'o', page[used++] = 'k', page[used++] = ' ';
        put(n);
        page[used++] = '\n';
        for (sf_count_t i = 0; i < n; i++) {
            for (int c = 0; c < info.channels; c++) {
                if (c)
                    page[used++] = ' ';
                put(block[i * info.channels + c]);
            }
            page[used++] = '\n';
            if (used > sizeof page - 64 * 8)
                flush();
        }
    }
    flush();
    printf("ok %ld\n", (long)info.frames);
    return sf_close(file);
}
