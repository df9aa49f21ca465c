// change NAME on|off FROM FRAMES, of 16 bits in two channels
#include "write_numbers.h"
#include <sndfile.h>
#include <unistd.h>
int main(int count, char **words) {
    SF_INFO info = {0};
    SNDFILE *file = sf_open(words[1], SFM_RDWR, &info);
    int whole = fill(16, 2), frames = atoi(words[4]);
    for (int i = 0; i < whole; i++)
        numbers[i] = (int)((unsigned)numbers[i] << 16);
    sf_command(file, SFC_SET_UPDATE_HEADER_AUTO, 0, !strcmp(words[2], "on"));
    if (sf_seek(file, atoll(words[3]), SEEK_SET | SFM_WRITE) < 0 || write(1, "sealed\n", 7) != 7)
        return 1;
    if (sf_writef_int(file, numbers, frames) != frames || write(1, "written\n", 8) != 8)
        return 1;
    return sf_close(file);
}
