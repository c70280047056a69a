/* Preloaded into a program, refuses the allocation whose number, from 1, stands in REFUSE_AT, and each that comes within
   REFUSE_FOR milliseconds after it, where that is given; all others are served. Where REFUSE_FROM names a file, the first is the one
   that comes once that is there. Where REFUSE_COUNT names a file, the number of allocations so far stands in it. */
#define _GNU_SOURCE
#include <dlfcn.h>
#include <errno.h>
#include <fcntl.h>
#include <stdio.h>
#include <stdlib.h>
#include <time.h>
#include <unistd.h>

static long next_number, refused, refused_for;
static struct timespec since;
static int has_begun, count_file;
/* Names a file that was not there yet. */
static const char *counted_from;

static long number_of(const char *name) {
    const char *text = getenv(name);
    return text ? atol(text) : 0;
}

static void begin(void) {
    const char *name = getenv("REFUSE_COUNT");
    count_file = name ? open(name, O_WRONLY | O_CREAT | O_CLOEXEC, 0600) : -1;
    refused = number_of("REFUSE_AT");
    refused_for = number_of("REFUSE_FOR");
    counted_from = getenv("REFUSE_FROM");
    has_begun = 1;
}

static int is_counted(void) {
    int was = errno;
    if (counted_from && access(counted_from, F_OK) == 0) counted_from = NULL;
    errno = was;
    return !counted_from;
}

static void count(void) {
    char line[32];
    next_number += 1;
    if (count_file < 0) return;
    int size = snprintf(line, sizeof line, "%ld\n", next_number);
    if (pwrite(count_file, line, size, 0) != size) abort();
}

/* Whether so many milliseconds have not passed since the allocation that was refused first. */
static int is_still_refused(void) {
    struct timespec now;
    clock_gettime(CLOCK_MONOTONIC, &now);
    return (now.tv_sec - since.tv_sec) * 1000 + (now.tv_nsec - since.tv_nsec) / 1000000 < refused_for;
}

static int refuses(void) {
    if (!has_begun) begin();
    if (!is_counted()) return 0;
    count();
    if (next_number == refused) clock_gettime(CLOCK_MONOTONIC, &since);
    return next_number == refused || (refused_for && next_number > refused && is_still_refused());
}

void *malloc(size_t size) {
    static void *(*real)(size_t);
    if (!real) real = (void *(*)(size_t))dlsym(RTLD_NEXT, "malloc");
    return refuses() ? NULL : real(size);
}

void *realloc(void *old, size_t size) {
    static void *(*real)(void *, size_t);
    if (!real) real = (void *(*)(void *, size_t))dlsym(RTLD_NEXT, "realloc");
    return refuses() ? NULL : real(old, size);
}
