/* Preloaded into a program, writes a line to the file that CALLS names for each of its calls by which an adapter meets the system:
   the call's name, its words, and `= RESULT`, which is - and the error's number where it failed. A wait is written before it begins,
   without a result. What a call reads or writes is named by its number, a letter for its kind (s a socket, p a pipe, t a terminal,
   f a file, d a folder, c another device), and N where the call would not wait, else B: `write 9 pN 120 = 120`. (strace would not see
   which clock is read, since that takes no call of the kernel.)

   It does what the environment says besides:
     BOOT_AHEAD    CLOCK_BOOTTIME is ahead by so many seconds, as where the machine was suspended for so long
     SHORT_WRITES  a write to a socket or a pipe takes so many bytes at most
     SHORT_FILES   a read or a write of a file moves so many bytes at most
     FAILS         names a file: each call whose name stands in it fails (EIO), of those that ask `fails`. Behind the name of `open` and
                   of `read` stands that of the file, without its folder */
#define _GNU_SOURCE
#include <arpa/inet.h>
#include <errno.h>
#include <fcntl.h>
#include <limits.h>
#include <poll.h>
#include <signal.h>
#include <stdarg.h>
#include <stdio.h>
#include <stdlib.h>
#include <string.h>
#include <sys/epoll.h>
#include <sys/file.h>
#include <sys/ioctl.h>
#include <sys/socket.h>
#include <sys/stat.h>
#include <sys/syscall.h>
#include <sys/uio.h>
#include <sys/un.h>
#include <time.h>
#include <unistd.h>

#define SIGNALS (_NSIG / 8)
#define LOG_FD 500 /* above all that a program opens, so that its own numbers are as without this library */

static int log_fd = -1;
static long boot_ahead, short_writes, short_files;
static const char *failing;

__attribute__((constructor)) static void begin(void) {
    const char *name = getenv("CALLS"), *ahead = getenv("BOOT_AHEAD"), *most = getenv("SHORT_WRITES"), *piece = getenv("SHORT_FILES");
    if (!name) return;
    int fd = syscall(SYS_openat, AT_FDCWD, name, O_WRONLY | O_CREAT | O_APPEND | O_CLOEXEC, 0600);
    log_fd = fd < 0 ? -1 : syscall(SYS_fcntl, fd, F_DUPFD_CLOEXEC, LOG_FD);
    if (log_fd < 0) abort();
    syscall(SYS_close, fd);
    boot_ahead = ahead ? atol(ahead) : 0;
    short_writes = most ? atol(most) : 0;
    short_files = piece ? atol(piece) : 0;
    failing = getenv("FAILS");
}

/* ---- lines */

__attribute__((format(printf, 1, 2))) static void say(const char *format, ...) {
    char line[4600];
    int error = errno;
    va_list words;
    va_start(words, format);
    int size = vsnprintf(line, sizeof line - 1, format, words);
    va_end(words);
    if (log_fd >= 0 && size > 0 && size < (int)sizeof line - 1) {
        line[size++] = '\n';
        syscall(SYS_write, log_fd, line, size);
    }
    errno = error;
}

/* What a call came to: its result, or its error below 0. */
static long of(long result) { return result < 0 ? -errno : result; }

/* What it came to, once it is written. */
#define SAID(result, format, ...) \
    do { \
        long came = (result); \
        say(format " = %ld", __VA_ARGS__, of(came)); \
        return came; \
    } while (0)

/* Whether calls of that name fail now. */
static int fails(const char *name) {
    char word[300];
    int fd = failing ? syscall(SYS_openat, AT_FDCWD, failing, O_RDONLY | O_CLOEXEC, 0) : -1;
    ssize_t count = fd < 0 ? 0 : syscall(SYS_read, fd, word, sizeof word - 1);
    if (fd >= 0) syscall(SYS_close, fd);
    word[count > 0 ? count : 0] = 0;
    if (strcmp(word, name) != 0) return 0;
    errno = EIO;
    return 1;
}

/* Whether calls of that name fail now of the file at this path. */
static int fails_at(const char *name, const char *path) {
    const char *slash = strrchr(path, '/');
    char word[300];
    return failing && snprintf(word, sizeof word, "%s %s", name, slash ? slash + 1 : path) < (int)sizeof word && fails(word);
}

/* Whether they do of the file with this number. */
static int fails_of(const char *name, int fd) {
    char number[32], path[PATH_MAX];
    snprintf(number, sizeof number, "/proc/self/fd/%d", fd);
    ssize_t size = failing ? syscall(SYS_readlinkat, AT_FDCWD, number, path, sizeof path - 1) : -1;
    path[size > 0 ? size : 0] = 0;
    return fails_at(name, path);
}

static char kind_of(int fd) {
    struct stat seen;
    if (fstat(fd, &seen) != 0) return '?';
    switch (seen.st_mode & S_IFMT) {
    case S_IFSOCK: return 's';
    case S_IFIFO: return 'p';
    case S_IFREG: return 'f';
    case S_IFDIR: return 'd';
    default: return isatty(fd) ? 't' : 'c';
    }
}

static char waits(int fd) {
    long flags = syscall(SYS_fcntl, fd, F_GETFL, 0);
    return flags >= 0 && flags & O_NONBLOCK ? 'N' : 'B';
}

static size_t at_most(long most, size_t count) { return most > 0 && count > (size_t)most ? (size_t)most : count; }

/* Of so many bytes, those that a read of such a kind gives at most. */
static size_t given(char kind, size_t count) { return kind == 'f' ? at_most(short_files, count) : count; }

/* Of so many bytes, those that a write there takes. */
static size_t taken(char kind, size_t count) { return kind == 's' || kind == 'p' ? at_most(short_writes, count) : given(kind, count); }

/* The text of an address; it is the same room each time. */
static const char *text_of(const struct sockaddr *address, socklen_t size) {
    static char text[256];
    char host[INET6_ADDRSTRLEN] = "";
    const struct sockaddr_in *four = (const void *)address;
    const struct sockaddr_in6 *six = (const void *)address;
    const struct sockaddr_un *path = (const void *)address;
    switch (address->sa_family) {
    case AF_INET:
        inet_ntop(AF_INET, &four->sin_addr, host, sizeof host);
        snprintf(text, sizeof text, "%s:%d", host, ntohs(four->sin_port));
        break;
    case AF_INET6:
        inet_ntop(AF_INET6, &six->sin6_addr, host, sizeof host);
        snprintf(text, sizeof text, "[%s]:%d", host, ntohs(six->sin6_port));
        break;
    case AF_UNIX: snprintf(text, sizeof text, "%.*s", (int)(size - sizeof path->sun_family), path->sun_path); break;
    default: snprintf(text, sizeof text, "?");
    }
    return text;
}

/* ---- clocks and waits */

static struct timespec time_of(long millis) { return (struct timespec){millis / 1000, millis % 1000 * 1000000}; }

static long millis_of(const struct timespec *time) { return time ? time->tv_sec * 1000 + time->tv_nsec / 1000000 : -1; }

int clock_gettime(clockid_t clock, struct timespec *time) {
    int result = syscall(SYS_clock_gettime, clock, time);
    if (result == 0 && clock == CLOCK_BOOTTIME) time->tv_sec += boot_ahead;
    SAID(result, "clock_gettime %d", clock);
}

int epoll_pwait(int place, struct epoll_event *events, int most, int millis, const sigset_t *signals) {
    say("epoll_wait %d %d", place, millis);
    return fails("epoll_wait") ? -1 : syscall(SYS_epoll_pwait, place, events, most, millis, signals, SIGNALS);
}

int epoll_wait(int place, struct epoll_event *events, int most, int millis) { return epoll_pwait(place, events, most, millis, NULL); }

int ppoll(struct pollfd *streams, nfds_t count, const struct timespec *patience, const sigset_t *signals) {
    say("poll %ld", millis_of(patience));
    struct timespec left = patience ? *patience : (struct timespec){0, 0};
    return syscall(SYS_ppoll, streams, count, patience ? &left : NULL, signals, SIGNALS);
}

int poll(struct pollfd *streams, nfds_t count, int millis) {
    struct timespec patience = time_of(millis);
    return ppoll(streams, count, millis < 0 ? NULL : &patience, NULL);
}

int clock_nanosleep(clockid_t clock, int flags, const struct timespec *asked, struct timespec *left) {
    say("sleep %ld", millis_of(asked));
    return syscall(SYS_clock_nanosleep, clock, flags, asked, left) < 0 ? errno : 0;
}

int nanosleep(const struct timespec *asked, struct timespec *left) {
    int error = clock_nanosleep(CLOCK_MONOTONIC, 0, asked, left);
    errno = error ? error : errno;
    return error ? -1 : 0;
}

int epoll_create1(int flags) { SAID(fails("epoll_create") ? -1 : syscall(SYS_epoll_create1, flags), "epoll_create %d", flags); }

int epoll_ctl(int place, int what, int fd, struct epoll_event *event) {
    unsigned events = event ? event->events : 0;
    SAID(fails("epoll_ctl") ? -1 : syscall(SYS_epoll_ctl, place, what, fd, event), "epoll_ctl %d %d %d %x", place, what, fd, events);
}

/* ---- bytes */

ssize_t read(int fd, void *bytes, size_t count) {
    char kind = kind_of(fd), waiting = waits(fd);
    ssize_t done = fails_of("read", fd) ? -1 : syscall(SYS_read, fd, bytes, given(kind, count));
    SAID(done, "read %d %c%c %zu", fd, kind, waiting, count);
}

ssize_t recv(int fd, void *bytes, size_t count, int flags) {
    char waiting = flags & MSG_DONTWAIT ? 'N' : waits(fd);
    SAID(syscall(SYS_recvfrom, fd, bytes, count, flags, NULL, NULL), "read %d s%c %zu", fd, waiting, count);
}

ssize_t write(int fd, const void *bytes, size_t count) {
    char kind = kind_of(fd), waiting = waits(fd);
    SAID(syscall(SYS_write, fd, bytes, taken(kind, count)), "write %d %c%c %zu", fd, kind, waiting, count);
}

ssize_t __write(int fd, const void *bytes, size_t count) { return write(fd, bytes, count); }

ssize_t writev(int fd, const struct iovec *parts, int count) { return count > 0 ? write(fd, parts[0].iov_base, parts[0].iov_len) : 0; }

ssize_t send(int fd, const void *bytes, size_t count, int flags) {
    char waiting = flags & MSG_DONTWAIT ? 'N' : waits(fd);
    SAID(syscall(SYS_sendto, fd, bytes, taken('s', count), flags, NULL, 0), "write %d s%c %zu", fd, waiting, count);
}

ssize_t pwrite(int fd, const void *bytes, size_t count, off_t at) {
    char kind = kind_of(fd), waiting = waits(fd);
    ssize_t done = fails("pwrite") ? -1 : syscall(SYS_pwrite64, fd, bytes, taken(kind, count), at);
    SAID(done, "pwrite %d %c%c %zu %ld", fd, kind, waiting, count, (long)at);
}

ssize_t pwrite64(int fd, const void *bytes, size_t count, off_t at) { return pwrite(fd, bytes, count, at); }

/* ---- files */

static int open_at(int folder, const char *path, int flags, mode_t mode) {
    int fd = fails_at("open", path) ? -1 : syscall(SYS_openat, folder, path, flags, mode);
    SAID(fd, "open %s %o %o", path, flags & ~(O_CLOEXEC | __O_LARGEFILE), mode);
}

static mode_t mode_of(int flags, va_list words) { return flags & (O_CREAT | __O_TMPFILE) ? va_arg(words, mode_t) : 0; }

int open(const char *path, int flags, ...) {
    va_list words;
    va_start(words, flags);
    mode_t mode = mode_of(flags, words);
    va_end(words);
    return open_at(AT_FDCWD, path, flags, mode);
}

int open64(const char *path, int flags, ...) {
    va_list words;
    va_start(words, flags);
    mode_t mode = mode_of(flags, words);
    va_end(words);
    return open_at(AT_FDCWD, path, flags, mode);
}

int openat(int folder, const char *path, int flags, ...) {
    va_list words;
    va_start(words, flags);
    mode_t mode = mode_of(flags, words);
    va_end(words);
    return open_at(folder, path, flags, mode);
}

int close(int fd) { SAID(syscall(SYS_close, fd), "close %d", fd); }

static int control(int fd, int what, long word) {
    if (what != F_DUPFD && what != F_DUPFD_CLOEXEC) return syscall(SYS_fcntl, fd, what, word);
    SAID(syscall(SYS_fcntl, fd, what, word), "dup %d", fd);
}

int fcntl(int fd, int what, ...) {
    va_list words;
    va_start(words, what);
    long word = va_arg(words, long);
    va_end(words);
    return control(fd, what, word);
}

int fcntl64(int fd, int what, ...) {
    va_list words;
    va_start(words, what);
    long word = va_arg(words, long);
    va_end(words);
    return control(fd, what, word);
}

int fsync(int fd) { SAID(fails("sync") ? -1 : syscall(SYS_fsync, fd), "sync %d %c", fd, kind_of(fd)); }

int fdatasync(int fd) { SAID(fails("sync") ? -1 : syscall(SYS_fdatasync, fd), "sync %d %c", fd, kind_of(fd)); }

int ftruncate(int fd, off_t size) { SAID(syscall(SYS_ftruncate, fd, size), "cut %d %ld", fd, (long)size); }

int ftruncate64(int fd, off_t size) { return ftruncate(fd, size); }

int rename(const char *from, const char *path) {
    SAID(fails("rename") ? -1 : syscall(SYS_renameat, AT_FDCWD, from, AT_FDCWD, path), "rename %s %s", from, path);
}

int unlink(const char *path) { SAID(syscall(SYS_unlinkat, AT_FDCWD, path, 0), "unlink %s", path); }

int mkdir(const char *path, mode_t mode) { SAID(syscall(SYS_mkdirat, AT_FDCWD, path, mode), "mkdir %s %o", path, mode); }

int chmod(const char *path, mode_t mode) { SAID(syscall(SYS_fchmodat, AT_FDCWD, path, mode), "chmod %s %o", path, mode); }

int fchmod(int fd, mode_t mode) { SAID(syscall(SYS_fchmod, fd, mode), "fchmod %d %o", fd, mode); }

int flock(int fd, int how) { SAID(fails("flock") ? -1 : syscall(SYS_flock, fd, how), "flock %d %d", fd, how); }

/* ---- sockets */

int socket(int domain, int type, int protocol) { SAID(syscall(SYS_socket, domain, type, protocol), "socket %d %o", domain, type); }

int bind(int fd, const struct sockaddr *address, socklen_t size) {
    SAID(syscall(SYS_bind, fd, address, size), "bind %d %s", fd, text_of(address, size));
}

int listen(int fd, int queue) { SAID(syscall(SYS_listen, fd, queue), "listen %d %d", fd, queue); }

int accept4(int fd, struct sockaddr *address, socklen_t *size, int flags) {
    char waiting = waits(fd);
    SAID(syscall(SYS_accept4, fd, address, size, flags), "accept %d s%c", fd, waiting);
}

int accept(int fd, struct sockaddr *address, socklen_t *size) { return accept4(fd, address, size, 0); }

int connect(int fd, const struct sockaddr *address, socklen_t size) {
    char waiting = waits(fd);
    SAID(syscall(SYS_connect, fd, address, size), "connect %d s%c %s", fd, waiting, text_of(address, size));
}

int setsockopt(int fd, int level, int option, const void *value, socklen_t size) {
    const struct timeval *time = value;
    int is_timeout = level == SOL_SOCKET && (option == SO_RCVTIMEO || option == SO_SNDTIMEO) && size == sizeof *time;
    long shown = is_timeout ? time->tv_sec * 1000 + time->tv_usec / 1000 : size == sizeof(int) ? *(const int *)value : -1;
    const char *name = !is_timeout ? "option" : option == SO_RCVTIMEO ? "longest-read" : "longest-write";
    SAID(syscall(SYS_setsockopt, fd, level, option, value, size), "%s %d %ld", name, fd, shown);
}
