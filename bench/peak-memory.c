/* Preloaded into a program, counts the bytes that it has allocated and writes their greatest number, in decimal digits, to
   the file that PEAK_FILE names when the program ends. */
#define _GNU_SOURCE
#include <dlfcn.h>
#include <malloc.h>
#include <stdio.h>
#include <stdlib.h>

static size_t held, peak;

static void *taken(void *block) {
    held += malloc_usable_size(block);
    if (held > peak) peak = held;
    return block;
}

void *malloc(size_t size) {
    static void *(*real)(size_t);
    if (!real) real = (void *(*)(size_t))dlsym(RTLD_NEXT, "malloc");
    return taken(real(size));
}

void *realloc(void *old, size_t size) {
    static void *(*real)(void *, size_t);
    if (!real) real = (void *(*)(void *, size_t))dlsym(RTLD_NEXT, "realloc");
    size_t before = malloc_usable_size(old);
    void *block = real(old, size);
    if (block) held -= before;
    return block ? taken(block) : NULL;
}

void free(void *block) {
    static void (*real)(void *);
    if (!real) real = (void (*)(void *))dlsym(RTLD_NEXT, "free");
    held -= malloc_usable_size(block);
    real(block);
}

__attribute__((destructor)) static void report(void) {
    size_t most = peak;
    const char *name = getenv("PEAK_FILE");
    FILE *file = name ? fopen(name, "w") : NULL;
    if (!file) return;
    fprintf(file, "%zu\n", most);
    fclose(file);
}
