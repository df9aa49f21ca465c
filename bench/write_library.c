// library NAME BITS|16be|ulaw|alaw|ima|ms FRAMES
#include "write_numbers.h"
#include <sndfile.h>
static short narrow[16384];
// the format of a codec that is given numbers of 16 bits, or 0
static int coded(const char *word) {
    return !strcmp(word, "ulaw")   ? SF_FORMAT_ULAW
           : !strcmp(word, "alaw") ? SF_FORMAT_ALAW
           : !strcmp(word, "ima")  ? SF_FORMAT_IMA_ADPCM
           : !strcmp(word, "ms")   ? SF_FORMAT_MS_ADPCM
                                   : 0;
}
static int put(SNDFILE *file, int code, int count) {
    return code ? sf_writef_short(file, narrow, count / 2) == count / 2 : sf_writef_int(file, numbers, count / 2) == count / 2;
}
int main(int count, char **words) {
    int code = coded(words[2]), law = code == SF_FORMAT_ULAW || code == SF_FORMAT_ALAW, big = !strcmp(words[2], "16be"), bits = code ? 16 : atoi(words[2]);
    int whole = fill(bits, law ? 1 : bits / 8), format = code ? code : bits == 16 ? SF_FORMAT_PCM_16 : bits == 24 ? SF_FORMAT_PCM_24 : SF_FORMAT_PCM_32;
    int64_t all = 2 * atoll(words[3]);
    SF_INFO info = {.samplerate = 44100, .channels = 2, .format = (big ? SF_FORMAT_AU : SF_FORMAT_WAV) | format};
    SNDFILE *file = sf_open(words[1], SFM_WRITE, &info);
    for (int i = 0; i < whole; i++) {
        narrow[i] = numbers[i];
        numbers[i] = (int)((unsigned)numbers[i] << (32 - bits));
    }
    for (int64_t i = 0; i < all / whole; i++) {
        narrow[0] = i % 128;
        numbers[0] = (int)(i % 128) << (32 - bits);
        if (!put(file, code, whole))
            return 1;
    }
    if (!put(file, code, all % whole))
        return 1;
    return sf_close(file);
}
