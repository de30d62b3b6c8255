/* Loaded before libc: the write to a place of number SHORT_AT (from 1) writes half of its bytes, one at least. Programs that are
   started from here do not load it. */
#define _GNU_SOURCE
#include <dlfcn.h>
#include <stdlib.h>
#include <sys/types.h>

static long count, place;

__attribute__((constructor)) static void begin(void) {
    const char *text = getenv("SHORT_AT");
    place = text ? atol(text) : -1;
    unsetenv("LD_PRELOAD");
    unsetenv("SHORT_AT");
}

ssize_t pwrite(int file, const void *bytes, size_t length, off_t at) {
    static ssize_t (*next)(int, const void *, size_t, off_t);
    if (!next) next = (ssize_t (*)(int, const void *, size_t, off_t))dlsym(RTLD_NEXT, "pwrite");
    if (++count == place && length > 1) length /= 2;
    return next(file, bytes, length, at);
}
