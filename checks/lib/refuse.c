/* A library to preload: it refuses memory at one call of malloc and its kin, or at that call and all behind it.
   REFUSED_CALL is the number of that call, counted from main on, and REFUSED_FROM is set where all behind it are refused, too.
   Where a call was refused, a file of the name REFUSED_TOLD is made. Built upon glibc. */
#include <errno.h>
#include <fcntl.h>
#include <stddef.h>
#include <stdlib.h>
#include <unistd.h>

extern void *__libc_malloc(size_t);
extern void *__libc_calloc(size_t, size_t);
extern void *__libc_realloc(void *, size_t);
extern void *__libc_memalign(size_t, size_t);

static unsigned long wanted;
static unsigned long calls;
static int goes_on;
static const char *told;

/* The loader runs this right before main. */
__attribute__((constructor)) static void begin(void) {
    const char *number = getenv("REFUSED_CALL");
    goes_on = getenv("REFUSED_FROM") != NULL;
    told = getenv("REFUSED_TOLD");
    calls = 0;
    wanted = number == NULL ? 0 : strtoul(number, NULL, 10);
}

static int refuses(void) {
    int file;
    if (wanted == 0)
        return 0;
    calls++;
    if (calls != wanted && !(goes_on && calls > wanted))
        return 0;
    if (told != NULL && calls == wanted) {
        file = open(told, O_WRONLY | O_CREAT, 0600);
        if (file >= 0)
            close(file);
    }
    errno = ENOMEM;
    return 1;
}

void *malloc(size_t size) {
    return refuses() ? NULL : __libc_malloc(size);
}

void *calloc(size_t count, size_t size) {
    return refuses() ? NULL : __libc_calloc(count, size);
}

/* A block that is made smaller or let go is given back, which is no growth; it is counted all the same. */
void *realloc(void *block, size_t size) {
    return refuses() ? NULL : __libc_realloc(block, size);
}

void *memalign(size_t align, size_t size) {
    return refuses() ? NULL : __libc_memalign(align, size);
}

void *aligned_alloc(size_t align, size_t size) {
    return refuses() ? NULL : __libc_memalign(align, size);
}

int posix_memalign(void **block, size_t align, size_t size) {
    if (refuses())
        return ENOMEM;
    *block = __libc_memalign(align, size);
    return *block == NULL ? ENOMEM : 0;
}
