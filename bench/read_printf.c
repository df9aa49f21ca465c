#include <sndfile.h>
#include <stdio.h>
static short block[2048];
int main(int count, char **words) {
    SF_INFO info = {0};
    SNDFILE *file = sf_open(words[1], SFM_READ, &info);
    printf("ok %ld %d %d wave pcm_16_le\n", (long)info.frames, info.channels, info.samplerate);
    for (sf_count_t n = 1024; n == 1024;) {
        n = sf_readf_short(file, block, 1024);
        printf("ok %ld\n", (long)n);
        for (sf_count_t i = 0; i < n; i++) {
            for (int c = 0; c < info.channels; c++)
                printf(c ? " %d" : "%d", block[i * info.channels + c]);
            putchar('\n');
        }
    }
    printf("ok %ld\n", (long)info.frames);
    return sf_close(file);
}
