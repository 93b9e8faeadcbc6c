/* Stands before the C library's requests for memory and refuses one of them: that of the number in the variable REFUSED, counted from the
   beginning of `main` on. A process that goes without a refusal writes how many there were to the file that COUNTED names. Built by
   `cc -O2 -shared -fPIC` and given to a program by LD_PRELOAD; no part of what is proved. */
#define _GNU_SOURCE
#include <dlfcn.h>
#include <stdio.h>
#include <stdlib.h>
#include <sys/syscall.h>
#include <unistd.h>

static long refused, count;
static int began;

__attribute__((constructor)) static void begin(void) {
    const char *number = getenv("REFUSED");
    refused = number ? atol(number) : 0;
    began = 1;
}

__attribute__((destructor)) static void end(void) {
    const char *path = getenv("COUNTED");
    long all = count;
    began = 0;
    FILE *file = path ? fopen(path, "w") : NULL;
    if (file) {
        fprintf(file, "%ld\n", all);
        fclose(file);
    }
}

/* The program may end without what the C library does at its end. */
void _exit(int status) {
    if (began) end();
    for (;;) syscall(SYS_exit_group, status);
}

static int refuses(void) { return began && ++count == refused; }

void *malloc(size_t size) {
    static void *(*next)(size_t);
    if (!next) next = (void *(*)(size_t))dlsym(RTLD_NEXT, "malloc");
    return refuses() ? NULL : next(size);
}

void *realloc(void *old, size_t size) {
    static void *(*next)(void *, size_t);
    if (!next) next = (void *(*)(void *, size_t))dlsym(RTLD_NEXT, "realloc");
    return refuses() ? NULL : next(old, size);
}

int posix_memalign(void **to, size_t align, size_t size) {
    static int (*next)(void **, size_t, size_t);
    if (!next) next = (int (*)(void **, size_t, size_t))dlsym(RTLD_NEXT, "posix_memalign");
    return refuses() ? 12 : next(to, align, size);
}
