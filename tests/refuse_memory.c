/* Loaded before libc: the allocation of number REFUSE_AT (from 1) is refused, and none after it. How many there were stands in the
   file REFUSE_TOLD at the end. Programs that are started from here do not load it. */
#define _GNU_SOURCE
#include <dlfcn.h>
#include <errno.h>
#include <fcntl.h>
#include <stdio.h>
#include <stdlib.h>
#include <string.h>
#include <unistd.h>

static long count, refused;
static char told[4096];

static void look(void) {
    const char *text = getenv("REFUSE_AT");
    refused = text ? atol(text) : -1;
}

__attribute__((constructor)) static void begin(void) {
    const char *path = getenv("REFUSE_TOLD");
    if (!refused) look();
    if (path && strlen(path) < sizeof told) strcpy(told, path);
    unsetenv("LD_PRELOAD");
    unsetenv("REFUSE_AT");
    unsetenv("REFUSE_TOLD");
}

__attribute__((destructor)) static void end(void) {
    char text[32];
    int length = snprintf(text, sizeof text, "%ld\n", count), file = told[0] ? open(told, O_WRONLY | O_CREAT | O_TRUNC, 0644) : -1;
    if (file >= 0 && write(file, text, length) == length) close(file);
}

static int refuses(void) {
    if (!refused) look();
    return ++count == refused;
}

void *malloc(size_t size) {
    static void *(*next)(size_t);
    if (!next) next = (void *(*)(size_t))dlsym(RTLD_NEXT, "malloc");
    if (refuses()) { errno = ENOMEM; return NULL; }
    return next(size);
}

void *realloc(void *old, size_t size) {
    static void *(*next)(void *, size_t);
    if (!next) next = (void *(*)(void *, size_t))dlsym(RTLD_NEXT, "realloc");
    if (refuses()) { errno = ENOMEM; return NULL; }
    return next(old, size);
}

int posix_memalign(void **to, size_t align, size_t size) {
    static int (*next)(void **, size_t, size_t);
    if (!next) next = (int (*)(void **, size_t, size_t))dlsym(RTLD_NEXT, "posix_memalign");
    if (refuses()) return ENOMEM;
    return next(to, align, size);
}

void *aligned_alloc(size_t align, size_t size) {
    static void *(*next)(size_t, size_t);
    if (!next) next = (void *(*)(size_t, size_t))dlsym(RTLD_NEXT, "aligned_alloc");
    if (refuses()) { errno = ENOMEM; return NULL; }
    return next(align, size);
}
