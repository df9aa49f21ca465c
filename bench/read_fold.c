#include <sndfile.h>
#include <stdint.h>
#include <stdio.h>
#include <stdlib.h>
static int block[8192];
static short narrow[8192];
int main(int count, char **words) {
    SF_INFO info = {0};
    SNDFILE *file = sf_open(words[1], SFM_READ, &info);
    int bits = atoi(words[2]);
    uint64_t sum = 0, frames = 0;
    if (bits == 16)
        for (sf_count_t n; (n = sf_readf_short(file, narrow, 8192 / info.channels)) > 0; frames += n)
            for (sf_count_t i = 0; i < n * info.channels; i++)
                sum += (uint64_t)(int64_t)narrow[i];
    else
        for (sf_count_t n; (n = sf_readf_int(file, block, 8192 / info.channels)) > 0; frames += n)
            for (sf_count_t i = 0; i < n * info.channels; i++)
                sum += (uint64_t)(int64_t)(block[i] >> (32 - bits));
    printf("frames %ju sum %jd\n", (uintmax_t)frames, (intmax_t)(int64_t)sum);
    return sf_close(file);
}
