/* A program that runs another one, REAL, and does one thing wrong where that wants memory: FAKE 1 says that a file failed, 2 that all
   went well, 3 changes a file that was to stay, and 4 prints what comes behind. */
#include <stdio.h>
#include <sys/wait.h>
#include <unistd.h>

int main(int count, char **words) {
    int status = 0;
    FILE *file;
    pid_t child = fork();
    (void)count;
    if (child == 0) {
        execv(REAL, words);
        _exit(126);
    }
    if (child < 0 || waitpid(child, &status, 0) < 0 || !WIFEXITED(status))
        return 126;
    status = WEXITSTATUS(status);
    if (status != 4)
        return status;
    if (FAKE == 3 && (file = fopen("a.wav", "r+")) != NULL) {
        fputc('x', file);
        fclose(file);
    }
    if (FAKE == 4 && write(1, "ok 0\n", 5) != 5)
        return 126;
    return FAKE == 1 ? 3 : FAKE == 2 ? 0 : status;
}
