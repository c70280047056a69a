/* Preloaded into a program, ends it at the disk call whose number, from 1, stands in CRASH_AT. CRASH_HOW says how:
     before  it is killed, and the call is not made
     half    it is killed in the midst of the call: of a write the first half is made, of another call nothing
     after   it is killed once the call is made
     lost    it is killed before the call, and all is undone that no sync has put on the disk, as where the machine loses its power
     mixed   so too, but CRASH_SEED says which of the calls are undone, and of a write which piece of its bytes
     fail    the call fails (EIO), and the program goes on
   Disk calls: what makes, writes, cuts, syncs, moves or removes a file or a folder; standard streams are none. Where CRASH_LOG
   names a file, each is written there, a word and a line feed.

   Where CRASH_UNDO names a file, what no sync has put on the disk is noted there: the next process that is told of it in the same
   folder goes on with that, and a machine that loses its power in it loses what the first one has not synced, too.

   Where CRASH_FOLDER is a number and a path, each sync of the folder at that path fails with that error.

   Where CRASH_WHILE names a file, disk calls go, as long as it is there, as the word in it says:
     full       what needs room fails (ENOSPC): to make or write a file, to make a folder
     read-only  each fails (EROFS), and so it does to open a file for writing
     stalls     each waits
     once N     call N fails (EIO), counted from 1 since the file is there */
#define _GNU_SOURCE
#include <errno.h>
#include <fcntl.h>
#include <limits.h>
#include <signal.h>
#include <stdarg.h>
#include <stdio.h>
#include <stdlib.h>
#include <string.h>
#include <sys/stat.h>
#include <sys/syscall.h>
#include <unistd.h>

#define MOST 4096

enum kind { BYTES, MADE, MOVED };

/* What undoes one call: the file's bytes as they were, a file that was not there, or the file that stood where one was moved to. A
   sync puts it on the disk of that file, or, of a name, of the folder in which it stands. The path of bytes is where the file is. */
struct undo {
    enum kind kind;
    int fd;
    dev_t device;
    ino_t inode;
    off_t at, size;
    char *old;
    size_t count;
    char from[PATH_MAX], path[PATH_MAX];
    mode_t mode;
    int is_there;
};

static struct undo *undos[MOST];
static int undo_count;
static long next_number;

static void *room_of(size_t size) {
    void *room = calloc(1, size);
    if (!room) abort();
    return room;
}

static int is_how(const char *how) {
    const char *text = getenv("CRASH_HOW");
    return text && strcmp(text, how) == 0;
}

/* ---- what a crash of the machine loses */

/* Notes all that for the next process. */
static void save(void) {
    const char *name = getenv("CRASH_UNDO");
    if (!name) return;
    int fd = syscall(SYS_openat, AT_FDCWD, name, O_WRONLY | O_CREAT | O_TRUNC | O_CLOEXEC, 0600);
    for (int index = 0; index < undo_count; index++) {
        syscall(SYS_write, fd, undos[index], sizeof *undos[index]);
        syscall(SYS_write, fd, undos[index]->old, undos[index]->count);
    }
    syscall(SYS_close, fd);
}

static void add(struct undo *undo) {
    if (undo_count == MOST) abort();
    undos[undo_count++] = undo;
    save();
}

static void forget(int index) {
    struct undo *undo = undos[index];
    if (undo->kind == BYTES) syscall(SYS_close, undo->fd);
    free(undo->old);
    free(undo);
    undo_count -= 1;
    memmove(undos + index, undos + index + 1, (undo_count - index) * sizeof *undos);
}

static char *bytes_of(int fd, off_t at, size_t count) {
    char *bytes = room_of(count + 1);
    size_t got = 0;
    while (got < count) {
        ssize_t n = syscall(SYS_pread64, fd, bytes + got, count - got, at + got);
        if (n <= 0) break;
        got += n;
    }
    return bytes;
}

/* Before bytes of a file are changed. The descriptor may be for writing alone, so the file is opened anew. */
static void keep_bytes(int fd, off_t at, size_t count) {
    char name[64];
    struct stat seen;
    snprintf(name, sizeof name, "/proc/self/fd/%d", fd);
    int own = syscall(SYS_openat, AT_FDCWD, name, O_RDWR | O_CLOEXEC, 0);
    if (own < 0 || fstat(own, &seen) < 0) abort();
    struct undo *undo = room_of(sizeof *undo);
    undo->kind = BYTES;
    undo->fd = own;
    if (readlink(name, undo->path, sizeof undo->path - 1) < 0) abort();
    undo->device = seen.st_dev;
    undo->inode = seen.st_ino;
    undo->at = at;
    undo->size = seen.st_size;
    undo->count = count;
    undo->old = bytes_of(own, at, count);
    add(undo);
}

/* The folder in which its path stands. */
static void keep_folder(struct undo *undo) {
    char folder[PATH_MAX];
    struct stat seen;
    strcpy(folder, undo->path);
    char *slash = strrchr(folder, '/');
    if (slash) slash[slash == folder] = 0;
    if (stat(slash ? folder : ".", &seen) < 0) abort();
    undo->device = seen.st_dev;
    undo->inode = seen.st_ino;
}

static void keep_made(const char *path) {
    struct undo *undo = room_of(sizeof *undo);
    undo->kind = MADE;
    snprintf(undo->path, sizeof undo->path, "%s", path);
    keep_folder(undo);
    add(undo);
}

/* The bytes of a file that is moved are found where it is then. */
static void follow(const char *from, const char *path) {
    struct stat seen;
    if (stat(from, &seen) < 0) return;
    for (int index = 0; index < undo_count; index++) {
        struct undo *undo = undos[index];
        if (undo->kind == BYTES && undo->device == seen.st_dev && undo->inode == seen.st_ino) snprintf(undo->path, sizeof undo->path, "%s", path);
    }
}

static void keep_moved(const char *from, const char *path) {
    struct stat seen;
    struct undo *undo = room_of(sizeof *undo);
    undo->kind = MOVED;
    snprintf(undo->from, sizeof undo->from, "%s", from);
    snprintf(undo->path, sizeof undo->path, "%s", path);
    keep_folder(undo);
    int fd = syscall(SYS_openat, AT_FDCWD, path, O_RDONLY | O_CLOEXEC, 0);
    if (fd >= 0 && fstat(fd, &seen) == 0) {
        undo->is_there = 1;
        undo->mode = seen.st_mode & 07777;
        undo->count = seen.st_size;
        undo->old = bytes_of(fd, 0, seen.st_size);
        syscall(SYS_close, fd);
    }
    follow(from, path);
    add(undo);
}

/* What the processes before this one have left. Bytes of a file that nobody finds any more are never seen again. */
__attribute__((constructor)) static void load(void) {
    const char *name = getenv("CRASH_UNDO");
    int fd = name ? syscall(SYS_openat, AT_FDCWD, name, O_RDONLY | O_CLOEXEC, 0) : -1;
    struct undo *undo = room_of(sizeof *undo);
    while (fd >= 0 && syscall(SYS_read, fd, undo, sizeof *undo) == sizeof *undo) {
        struct stat seen;
        undo->old = room_of(undo->count + 1);
        if (undo->count && syscall(SYS_read, fd, undo->old, undo->count) != (long)undo->count) abort();
        if (undo->kind == BYTES) {
            undo->fd = syscall(SYS_openat, AT_FDCWD, undo->path, O_RDWR | O_CLOEXEC, 0);
            if (undo->fd < 0 || fstat(undo->fd, &seen) < 0) continue;
            if (undo->device != seen.st_dev || undo->inode != seen.st_ino) continue;
        }
        undos[undo_count++] = undo;
        undo = room_of(sizeof *undo);
    }
    if (fd >= 0) syscall(SYS_close, fd);
}

/* A file is on the disk, or the names in a folder are. */
static void synced(int fd) {
    struct stat seen;
    if (fstat(fd, &seen) < 0) abort();
    for (int index = undo_count - 1; index >= 0; index--) {
        if (undos[index]->device == seen.st_dev && undos[index]->inode == seen.st_ino) forget(index);
    }
    save();
}

static unsigned drawn;

/* The next number that CRASH_SEED gives, less than `most`. */
static size_t draw(size_t most) {
    drawn = drawn * 1103515245u + 12345u;
    return (drawn >> 16) % most;
}

/* Of a write: all of its bytes and the file's size, or a piece of its bytes, and the size or not. */
static void take_back_bytes(struct undo *undo) {
    size_t from = is_how("lost") || undo->count < 2 ? 0 : draw(undo->count);
    size_t count = is_how("lost") || undo->count < 2 ? undo->count : 1 + draw(undo->count - from);
    syscall(SYS_pwrite64, undo->fd, undo->old + from, count, undo->at + from);
    if (is_how("lost") || !draw(4)) syscall(SYS_ftruncate, undo->fd, undo->size);
}

static void take_back(struct undo *undo) {
    if (undo->kind == BYTES) {
        take_back_bytes(undo);
    } else if (undo->kind == MADE) {
        syscall(SYS_unlinkat, AT_FDCWD, undo->path, 0);
    } else {
        syscall(SYS_renameat, AT_FDCWD, undo->path, AT_FDCWD, undo->from);
        if (!undo->is_there) return;
        int fd = syscall(SYS_openat, AT_FDCWD, undo->path, O_WRONLY | O_CREAT | O_TRUNC, undo->mode);
        syscall(SYS_write, fd, undo->old, undo->count);
        syscall(SYS_fchmod, fd, undo->mode);
    }
}

static void lose(void) {
    const char *text = getenv("CRASH_SEED");
    drawn = text ? atoi(text) : 0;
    for (int index = undo_count - 1; index >= 0; index--)
        if (is_how("lost") || draw(2)) take_back(undos[index]);
    undo_count = 0;
    save();
}

/* ---- the call whose turn it is */

static void note(const char *word) {
    const char *name = getenv("CRASH_LOG");
    char line[64];
    if (!name) return;
    int fd = syscall(SYS_openat, AT_FDCWD, name, O_WRONLY | O_CREAT | O_APPEND, 0600);
    int size = snprintf(line, sizeof line, "%s\n", word);
    syscall(SYS_write, fd, line, size);
    syscall(SYS_close, fd);
}

static void die(void) {
    kill(getpid(), SIGKILL);
    for (;;) pause();
}

/* Counts a call: 1 where it is the one. */
static int is_turn(const char *word) {
    const char *text = getenv("CRASH_AT");
    note(word);
    next_number += 1;
    return text && next_number == atol(text);
}

/* The word in the file that CRASH_WHILE names; none where it is not there. */
static const char *present_word(void) {
    static char word[16];
    const char *name = getenv("CRASH_WHILE");
    int fd = name ? syscall(SYS_openat, AT_FDCWD, name, O_RDONLY | O_CLOEXEC, 0) : -1;
    ssize_t count = fd < 0 ? 0 : syscall(SYS_read, fd, word, sizeof word - 1);
    if (fd >= 0) syscall(SYS_close, fd);
    word[count > 0 ? count : 0] = 0;
    return word;
}

/* 1 where the disk takes no such call at present; one that stalls takes it later. */
static int is_refused(int needs_room) {
    while (strcmp(present_word(), "stalls") == 0) usleep(10000);
    int is_full = needs_room && strcmp(present_word(), "full") == 0;
    int is_read_only = strcmp(present_word(), "read-only") == 0;
    if (is_full || is_read_only) errno = is_full ? ENOSPC : EROFS;
    return is_full || is_read_only;
}

/* 1 where this is the one call that the disk fails at present. */
static int is_once(void) {
    static long number;
    const char *word = present_word();
    if (strncmp(word, "once ", 5) != 0) {
        number = 0;
        return 0;
    }
    number += 1;
    if (number != atol(word + 5)) return 0;
    errno = EIO;
    return 1;
}

/* What happens before the call whose turn it is; 1 where it is to fail, or the disk takes no such call. */
static int stops(int turn, int needs_room) {
    if (is_refused(needs_room) || is_once()) return 1;
    if (!turn) return 0;
    if (is_how("lost") || is_how("mixed")) lose();
    if (is_how("before") || is_how("half") || is_how("lost") || is_how("mixed")) die();
    if (is_how("fail")) {
        errno = EIO;
        return 1;
    }
    return 0;
}

static void ended(int turn) {
    if (turn && is_how("after")) die();
}

/* ---- the calls */

static ssize_t write_bytes(int fd, const void *bytes, size_t count, off_t at, int is_at_place) {
    int turn = is_turn("write");
    if (turn && is_how("half")) {
        keep_bytes(fd, at, count);
        syscall(SYS_pwrite64, fd, bytes, count / 2, at);
        die();
    }
    if (stops(turn, 1)) return -1;
    keep_bytes(fd, at, count);
    ssize_t n = is_at_place ? syscall(SYS_pwrite64, fd, bytes, count, at) : syscall(SYS_write, fd, bytes, count);
    ended(turn);
    return n;
}

static int is_file(int fd) {
    struct stat seen;
    return fd > 2 && fstat(fd, &seen) == 0 && S_ISREG(seen.st_mode);
}

ssize_t write(int fd, const void *bytes, size_t count) {
    if (!is_file(fd)) return syscall(SYS_write, fd, bytes, count);
    return write_bytes(fd, bytes, count, syscall(SYS_lseek, fd, 0, SEEK_CUR), 0);
}

ssize_t pwrite(int fd, const void *bytes, size_t count, off_t at) {
    return write_bytes(fd, bytes, count, at, 1);
}

ssize_t pwrite64(int fd, const void *bytes, size_t count, off_t at) {
    return write_bytes(fd, bytes, count, at, 1);
}

int ftruncate(int fd, off_t size) {
    struct stat seen;
    int turn = is_turn("cut");
    if (stops(turn, 0)) return -1;
    if (fstat(fd, &seen) == 0) keep_bytes(fd, size, seen.st_size > size ? seen.st_size - size : 0);
    int done = syscall(SYS_ftruncate, fd, size);
    ended(turn);
    return done;
}

int ftruncate64(int fd, off_t size) {
    return ftruncate(fd, size);
}

/* 1 where it is the folder that CRASH_FOLDER names, whose sync fails. */
static int is_lost_folder(int fd) {
    struct stat seen, named;
    char *path;
    const char *text = getenv("CRASH_FOLDER");
    if (!text) return 0;
    int error = strtol(text, &path, 10);
    if (fstat(fd, &seen) < 0 || stat(path + 1, &named) < 0) return 0;
    if (seen.st_dev != named.st_dev || seen.st_ino != named.st_ino) return 0;
    errno = error;
    return 1;
}

int fsync(int fd) {
    int turn = is_turn("sync");
    if (stops(turn, 0)) return -1;
    if (is_lost_folder(fd)) return -1;
    int done = syscall(SYS_fsync, fd);
    if (done == 0) synced(fd);
    ended(turn);
    return done;
}

int fdatasync(int fd) {
    return fsync(fd);
}

int rename(const char *from, const char *path) {
    int turn = is_turn("move");
    if (stops(turn, 0)) return -1;
    keep_moved(from, path);
    int done = syscall(SYS_renameat, AT_FDCWD, from, AT_FDCWD, path);
    ended(turn);
    return done;
}

int unlink(const char *path) {
    int turn = is_turn("remove");
    if (stops(turn, 0)) return -1;
    int done = syscall(SYS_unlinkat, AT_FDCWD, path, 0);
    int error = errno;
    ended(turn);
    errno = error;
    return done;
}

int fchmod(int fd, mode_t mode) {
    int turn = is_turn("mode");
    if (stops(turn, 0)) return -1;
    int done = syscall(SYS_fchmod, fd, mode);
    ended(turn);
    return done;
}

/* (A folder that is there is found before it matters that nothing can be written.) */
int mkdir(const char *path, mode_t mode) {
    int turn = is_turn("folder");
    struct stat seen;
    if (stops(turn, 1)) {
        int error = errno;
        errno = (error == EROFS || error == ENOSPC) && stat(path, &seen) == 0 ? EEXIST : error;
        return -1;
    }
    int done = syscall(SYS_mkdirat, AT_FDCWD, path, mode);
    int error = errno;
    ended(turn);
    errno = error;
    return done;
}

/* Whether a file that is there is opened to be written. */
static int is_to_write(int folder, const char *path, int flags) {
    struct stat seen;
    return (flags & O_ACCMODE) != O_RDONLY && fstatat(folder, path, &seen, 0) == 0 && S_ISREG(seen.st_mode);
}

static int open_file(int folder, const char *path, int flags, mode_t mode) {
    if (!(flags & O_CREAT)) {
        if (is_to_write(folder, path, flags) && is_refused(0)) return -1;
        return syscall(SYS_openat, folder, path, flags, mode);
    }
    int was = faccessat(folder, path, F_OK, AT_SYMLINK_NOFOLLOW);
    int turn = is_turn("make");
    if (stops(turn, was < 0)) return -1;
    int fd = syscall(SYS_openat, folder, path, flags, mode);
    int error = errno;
    if (fd >= 0 && was < 0) keep_made(path);
    ended(turn);
    errno = error;
    return fd;
}

int open(const char *path, int flags, ...) {
    va_list more;
    va_start(more, flags);
    mode_t mode = flags & O_CREAT ? va_arg(more, mode_t) : 0;
    va_end(more);
    return open_file(AT_FDCWD, path, flags, mode);
}

int open64(const char *path, int flags, ...) {
    va_list more;
    va_start(more, flags);
    mode_t mode = flags & O_CREAT ? va_arg(more, mode_t) : 0;
    va_end(more);
    return open_file(AT_FDCWD, path, flags, mode);
}
