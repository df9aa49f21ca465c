#include <string.h>
#include <unistd.h>
#include <stdlib.h>
int main(int count, char **words) {
    size_t length = strlen(words[1]);
    for (long i = atol(words[2]); i > 0; i--)
        write(1, words[1], length);
    return 0;
}
