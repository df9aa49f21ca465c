// turn FROM FROM_FORMAT TO TO_FORMAT: all samples of one file into another; formats are libsndfile's numbers, 0 for a file that tells
#include <sndfile.h>
#include <stdlib.h>
static short block[16384];
int main(int count, char **words) {
    SF_INFO in = {.samplerate = 32000, .channels = 1, .format = strtol(words[2], 0, 0)};
    SF_INFO out = {.samplerate = 32000, .channels = 1, .format = strtol(words[4], 0, 0)};
    SNDFILE *from = sf_open(words[1], SFM_READ, &in), *to = sf_open(words[3], SFM_WRITE, &out);
    if (!from || !to)
        return 1;
    for (sf_count_t n; (n = sf_read_short(from, block, 16384)) > 0;)
        if (sf_write_short(to, block, n) != n)
            return 1;
    return sf_close(from) | sf_close(to);
}
