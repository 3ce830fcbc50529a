// Preloaded: at each write to standard output, and at each SIGUSR1, tells on standard error how many bytes are allocated, and in how
// many blocks.
#define _GNU_SOURCE
#include <dlfcn.h>
#include <malloc.h>
#include <signal.h>
#include <stdio.h>
#include <unistd.h>

static long live, blocks;

void *malloc(size_t size) {
    static void *(*next)(size_t);
    if (!next) next = dlsym(RTLD_NEXT, "malloc");
    void *made = next(size);
    if (made) live += malloc_usable_size(made), blocks++;
    return made;
}

void *realloc(void *old, size_t size) {
    static void *(*next)(void *, size_t);
    if (!next) next = dlsym(RTLD_NEXT, "realloc");
    long before = old ? malloc_usable_size(old) : 0;
    void *made = next(old, size);
    if (made) live += (long)malloc_usable_size(made) - before, blocks += !old;
    return made;
}

void free(void *old) {
    static void (*next)(void *);
    if (!next) next = dlsym(RTLD_NEXT, "free");
    if (old) live -= malloc_usable_size(old), blocks--;
    next(old);
}

static void tell(void) {
    static ssize_t (*next)(int, const void *, size_t);
    if (!next) next = dlsym(RTLD_NEXT, "write");
    char line[80];
    next(2, line, snprintf(line, sizeof line, "live %ld blocks %ld\n", live, blocks));
}

ssize_t write(int to, const void *bytes, size_t size) {
    static ssize_t (*next)(int, const void *, size_t);
    if (!next) next = dlsym(RTLD_NEXT, "write");
    if (to == 1) tell();
    return next(to, bytes, size);
}

static void told(int signal) { tell(); }

__attribute__((constructor)) static void listen_to_signals(void) { signal(SIGUSR1, told); }
