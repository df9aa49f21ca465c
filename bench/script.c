#include <sndfile.h>
#include <stdio.h>
#include <stdlib.h>
#include <string.h>
static char line[8192];
static short numbers[2048];
int main(int count, char **words) {
    SF_INFO info = {0};
    SNDFILE *file = NULL;
    while (fgets(line, sizeof line, stdin)) {
        if (strncmp(line, "write ", 6) == 0) {
            int n = 0;
            char *at = line + 6, *next;
            for (;; at = next) {
                long x = strtol(at, &next, 10);
                if (next == at)
                    break;
                numbers[n++] = x;
            }
            if (sf_writef_short(file, numbers, n / info.channels) != n / info.channels)
                return 3;
            printf("ok %d\n", n / info.channels);
        } else if (strncmp(line, "create ", 7) == 0 || strncmp(line, "open u ", 7) == 0) {
            int makes = line[0] == 'c';
            if (makes)
                info = (SF_INFO){0, 44100, 2, SF_FORMAT_WAV | SF_FORMAT_PCM_16, 0, 0};
            file = sf_open(words[1], makes ? SFM_WRITE : SFM_RDWR, &info);
            printf("ok %ld %d %d wave pcm_16_le\n", (long)info.frames, info.channels, info.samplerate);
        } else if (strncmp(line, "seek w ", 7) == 0) {
            printf("ok %ld\n", (long)sf_seek(file, atol(line + 7), SEEK_SET | SFM_WRITE));
        }
        fflush(stdout);
    }
    return file ? sf_close(file) : 0;
}
