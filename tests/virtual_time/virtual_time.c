/* Preloaded into a program, lets it live in the time of a test: its three clocks show what the test says, and a wait takes that time.
   VIRTUAL_TIME is `FILE REPORT GO`. FILE holds the numbers of `enum cell`, which both sides share; REPORT and GO are two pipes.

   The program runs while the test stands still, and the other way round. Where it waits, and nothing that it waits for can go on, then
   - if it has said something since (`has_said`), or something else may happen before its wait is over (HORIZON), it writes a byte to
     REPORT and stands still until a byte comes from GO: the test answers, and moves the clocks on;
   - else nobody could tell the difference, so it sets its clock to the end of its wait by itself. An hour without a request, which is
     120 waits or more, takes no turn of the test.

   BOOT names a file that stands in the place of the kernel's for the boot's id. Disk calls (those that make, write, sync, move or remove
   a file) wait until DISK_WAITS, and fail with DISK_FAILS where that is not 0. Before its call of number KILLED, counted down, it is
   killed. A time-out that a blocking socket call would have is refused: no call of that kind would take the time of the test. */
#define _GNU_SOURCE
#include <errno.h>
#include <fcntl.h>
#include <poll.h>
#include <signal.h>
#include <stdarg.h>
#include <stdint.h>
#include <stdio.h>
#include <stdlib.h>
#include <string.h>
#include <sys/epoll.h>
#include <sys/mman.h>
#include <sys/socket.h>
#include <sys/stat.h>
#include <sys/syscall.h>
#include <sys/uio.h>
#include <time.h>
#include <unistd.h>

/* All in nanoseconds of CLOCK_MONOTONIC, but for the last three. */
enum cell {
    NOW,
    BOOT_AHEAD, /* of NOW: the time in which the machine was suspended, and what the clock began with */
    WALL_AHEAD, /* of NOW */
    HORIZON,    /* before it nothing happens but this program's own time-outs */
    UNTIL,      /* the end of the wait at hand */
    LATE,       /* a wait that is over ends so much later */
    TURN,       /* what a wait of no length takes */
    DISK_WAITS, /* until then each disk call waits */
    DISK_FAILS, /* the error of each disk call, or 0 */
    KILLED,     /* the calls left before it is killed, or 0 */
    WAITS,      /* how many waits were over by themselves */
    CELLS
};

static volatile int64_t *shared;
static int report, go, has_said;
static char boot[256];
static struct stat log_file; /* standard output, which a program may open once more */

__attribute__((constructor)) static void begin(void) {
    const char *words = getenv("VIRTUAL_TIME"), *file_of_boot = getenv("BOOT");
    char name[256];
    if (!words || sscanf(words, "%255s %d %d", name, &report, &go) != 3) return;
    int file = syscall(SYS_openat, AT_FDCWD, name, O_RDWR | O_CLOEXEC, 0);
    void *page = file < 0 ? MAP_FAILED : mmap(NULL, 4096, PROT_READ | PROT_WRITE, MAP_SHARED, file, 0);
    if (page == MAP_FAILED) abort();
    syscall(SYS_close, file);
    fstat(1, &log_file);
    if (file_of_boot) snprintf(boot, sizeof boot, "%s", file_of_boot);
    shared = page;
}

/* ---- time */

static void hand_over(int64_t until) {
    char byte = 0;
    shared[UNTIL] = until;
    if (syscall(SYS_write, report, &byte, 1) != 1) _exit(70);
    for (;;) {
        ssize_t count = syscall(SYS_read, go, &byte, 1);
        if (count == 1) break;
        if (count == 0 || errno != EINTR) _exit(70); /* the test is gone */
    }
    has_said = 0;
}

/* Whether the wait until then is over; if not, something may have happened. */
static int pass(int64_t until) {
    if (shared[NOW] >= until) return 1;
    if (!has_said && until < shared[HORIZON]) {
        shared[NOW] = until;
        shared[WAITS] += 1;
        return 1;
    }
    hand_over(until);
    return 0;
}

static int64_t end_of_wait(int64_t nanoseconds) {
    if (nanoseconds < 0) return INT64_MAX;
    return shared[NOW] + (nanoseconds ? nanoseconds + shared[LATE] : shared[TURN]);
}

static int64_t nanoseconds_of(const struct timespec *time) { return time ? time->tv_sec * 1000000000 + time->tv_nsec : -1; }

int clock_gettime(clockid_t clock, struct timespec *time) {
    int64_t now;
    if (!shared) return (int)syscall(SYS_clock_gettime, clock, time);
    switch (clock) {
    case CLOCK_MONOTONIC:
    case CLOCK_MONOTONIC_RAW:
    case CLOCK_MONOTONIC_COARSE: now = shared[NOW]; break;
    case CLOCK_BOOTTIME: now = shared[NOW] + shared[BOOT_AHEAD]; break;
    case CLOCK_REALTIME:
    case CLOCK_REALTIME_COARSE: now = shared[NOW] + shared[WALL_AHEAD]; break;
    default: return (int)syscall(SYS_clock_gettime, clock, time);
    }
    time->tv_sec = now / 1000000000;
    time->tv_nsec = now % 1000000000;
    return 0;
}

int epoll_pwait(int place, struct epoll_event *events, int most, int milliseconds, const sigset_t *signals) {
    if (!shared) return (int)syscall(SYS_epoll_pwait, place, events, most, milliseconds, signals, _NSIG / 8);
    int64_t until = end_of_wait((int64_t)milliseconds * 1000000);
    for (;;) {
        int found = (int)syscall(SYS_epoll_pwait, place, events, most, 0, signals, _NSIG / 8);
        if (found || pass(until)) return found;
    }
}

int epoll_wait(int place, struct epoll_event *events, int most, int milliseconds) {
    return epoll_pwait(place, events, most, milliseconds, NULL);
}

int ppoll(struct pollfd *streams, nfds_t count, const struct timespec *patience, const sigset_t *signals) {
    if (!shared) return (int)syscall(SYS_ppoll, streams, count, patience, signals, _NSIG / 8);
    int64_t until = end_of_wait(nanoseconds_of(patience));
    for (;;) {
        struct timespec none = {0, 0};
        int found = (int)syscall(SYS_ppoll, streams, count, &none, signals, _NSIG / 8);
        if (found || pass(until)) return found;
    }
}

int poll(struct pollfd *streams, nfds_t count, int milliseconds) {
    struct timespec patience = {milliseconds / 1000, milliseconds % 1000 * 1000000};
    return ppoll(streams, count, milliseconds < 0 ? NULL : &patience, NULL);
}

int nanosleep(const struct timespec *asked, struct timespec *left) {
    if (!shared) return (int)syscall(SYS_nanosleep, asked, left);
    int64_t until = end_of_wait(nanoseconds_of(asked));
    while (!pass(until)) {}
    return 0;
}

int clock_nanosleep(clockid_t clock, int flags, const struct timespec *asked, struct timespec *left) {
    struct timespec now;
    if (!shared) return (int)-syscall(SYS_clock_nanosleep, clock, flags, asked, left);
    if (!(flags & TIMER_ABSTIME)) return nanosleep(asked, left);
    clock_gettime(clock, &now);
    int64_t ahead = nanoseconds_of(asked) - nanoseconds_of(&now);
    struct timespec time = {ahead > 0 ? ahead / 1000000000 : 0, ahead > 0 ? ahead % 1000000000 : 0};
    return nanosleep(&time, left);
}

int setsockopt(int stream, int level, int option, const void *value, socklen_t size) {
    static const char fault[] = "virtual_time: a blocking socket call with a time-out\n";
    int is_timeout = option == SO_RCVTIMEO || option == SO_SNDTIMEO;
    if (shared && level == SOL_SOCKET && is_timeout && size >= sizeof(int64_t) && *(const int64_t *)value != 0) {
        syscall(SYS_write, 2, fault, sizeof fault - 1);
        abort();
    }
    return (int)syscall(SYS_setsockopt, stream, level, option, value, size);
}

/* ---- calls that others may see */

static void count_call(void) {
    if (shared && shared[KILLED] > 0 && --shared[KILLED] == 0) syscall(SYS_kill, getpid(), SIGKILL);
}

static void say(void) {
    count_call();
    has_said = 1;
}

/* Waits as long as the disk does. Whether the call fails, with errno. */
static int disk_fails(void) {
    count_call();
    if (!shared) return 0;
    while (shared[NOW] < shared[DISK_WAITS]) pass(shared[DISK_WAITS]);
    if (shared[DISK_FAILS]) errno = (int)shared[DISK_FAILS];
    return shared[DISK_FAILS] != 0;
}

/* What is written to: a file that is kept; the log or standard error, of which nobody waits for a word; or anything else. */
enum kind { SOCKET, KEPT, LOG };

static enum kind kind_of(int fd) {
    struct stat seen;
    if (!shared || fstat(fd, &seen) != 0) return SOCKET;
    if (fd == 2 || (seen.st_ino == log_file.st_ino && seen.st_dev == log_file.st_dev)) return LOG;
    return S_ISREG(seen.st_mode) ? KEPT : SOCKET;
}

int connect(int stream, const struct sockaddr *place, socklen_t size) {
    say();
    return (int)syscall(SYS_connect, stream, place, size);
}

ssize_t send(int stream, const void *bytes, size_t count, int flags) {
    say();
    return syscall(SYS_sendto, stream, bytes, count, flags, NULL, 0);
}

ssize_t sendmsg(int stream, const struct msghdr *message, int flags) {
    say();
    return syscall(SYS_sendmsg, stream, message, flags);
}

ssize_t writev(int fd, const struct iovec *parts, int count) {
    say();
    return syscall(SYS_writev, fd, parts, count);
}

int shutdown(int stream, int how) {
    say();
    return (int)syscall(SYS_shutdown, stream, how);
}

int close(int fd) {
    say();
    return (int)syscall(SYS_close, fd);
}

ssize_t __write(int fd, const void *bytes, size_t count) {
    enum kind kind = kind_of(fd);
    if (kind == KEPT && disk_fails()) return -1;
    if (kind == SOCKET) say();
    return syscall(SYS_write, fd, bytes, count);
}

ssize_t write(int fd, const void *bytes, size_t count) { return __write(fd, bytes, count); }

ssize_t pwrite(int fd, const void *bytes, size_t count, off_t at) {
    return disk_fails() ? -1 : syscall(SYS_pwrite64, fd, bytes, count, at);
}

ssize_t pwrite64(int fd, const void *bytes, size_t count, off_t at) { return pwrite(fd, bytes, count, at); }

int ftruncate(int fd, off_t size) { return disk_fails() ? -1 : (int)syscall(SYS_ftruncate, fd, size); }

int ftruncate64(int fd, off_t size) { return ftruncate(fd, size); }

int fsync(int fd) { return disk_fails() ? -1 : (int)syscall(SYS_fsync, fd); }

int fdatasync(int fd) { return disk_fails() ? -1 : (int)syscall(SYS_fdatasync, fd); }

int rename(const char *from, const char *path) { return disk_fails() ? -1 : (int)syscall(SYS_rename, from, path); }

int unlink(const char *path) { return disk_fails() ? -1 : (int)syscall(SYS_unlink, path); }

int mkdir(const char *path, mode_t mode) { return disk_fails() ? -1 : (int)syscall(SYS_mkdir, path, mode); }

static int open_at(int folder, const char *path, int flags, mode_t mode) {
    static const char id[] = "/proc/sys/kernel/random/boot_id";
    if (shared && boot[0] && strcmp(path, id) == 0) path = boot;
    if ((flags & (O_CREAT | O_TRUNC)) && disk_fails()) return -1;
    return (int)syscall(SYS_openat, folder, path, flags, mode);
}

static mode_t mode_of(int flags, va_list words) { return flags & (O_CREAT | __O_TMPFILE) ? va_arg(words, mode_t) : 0; }

int open(const char *path, int flags, ...) {
    va_list words;
    va_start(words, flags);
    mode_t mode = mode_of(flags, words);
    va_end(words);
    return open_at(AT_FDCWD, path, flags, mode);
}

int open64(const char *path, int flags, ...) {
    va_list words;
    va_start(words, flags);
    mode_t mode = mode_of(flags, words);
    va_end(words);
    return open_at(AT_FDCWD, path, flags, mode);
}

int openat(int folder, const char *path, int flags, ...) {
    va_list words;
    va_start(words, flags);
    mode_t mode = mode_of(flags, words);
    va_end(words);
    return open_at(folder, path, flags, mode);
}
