/*
 * Faults for a program's file operations: gcc -shared -fPIC -o crash.so tests/crash.c, then LD_PRELOAD=crash.so. x86-64 Linux.
 *
 *   FAULT_PROGRAM  the name of the program that is meant; in any other one nothing happens
 *   FAULT_TRACE    a file that gets a line for each counted call: its number, its name, its descriptor or path; a write to
 *                  standard output or standard error is called print
 *   FAULT_AT       the number of the call, from 1; beyond the last one: the end of the program
 *   FAULT_KIND     what happens there: before, after, half (the process is killed before it, after it, or with half of its bytes
 *                  written), fail (it does nothing and fails), short (half of its bytes are written, and every later write to
 *                  that file fails), lasting (it and every later call of its name fails)
 *   FAULT_ERRNO    what it fails with, a number
 *   FAULT_POWER    a seed: the process's end is a power loss, in which what was not synced is lost or not, as the seed has it
 *   FAULT_KEEP     a folder on the same file system, for links to what a rename or an unlink takes away
 *   FAULT_READ     at most so many bytes are read from standard input at once
 */
#define _GNU_SOURCE
#include <errno.h>
#include <fcntl.h>
#include <libgen.h>
#include <limits.h>
#include <signal.h>
#include <stdarg.h>
#include <stdint.h>
#include <stdio.h>
#include <stdlib.h>
#include <string.h>
#include <sys/stat.h>
#include <sys/syscall.h>
#include <sys/uio.h>
#include <unistd.h>

enum kind { NONE, BEFORE, AFTER, HALF, FAIL, SHORT, LASTING };
static const char *const kinds[] = {"none", "before", "after", "half", "fail", "short", "lasting"};

static int active, power, error, trace = -1;
static enum kind kind;
static long at, count, read_limit;
static uint64_t seed;
static const char *keep;
static char lasting_name[16];
static int short_fd = -1;

/* A file with bytes that were not synced: what it held when it was. */
struct unsynced {
    dev_t device;
    ino_t inode;
    int fd;
    char *bytes;
    off_t length;
};

/* A change of a folder that was not synced: a file made, renamed or removed, with a link to what was there before. */
struct change {
    dev_t device;
    ino_t folder;
    char from[PATH_MAX];
    char to[PATH_MAX];
    char kept[PATH_MAX];
};

enum { MOST = 256 };
static struct unsynced files[MOST];
static struct change changes[MOST];
static int file_count, change_count, kept_count;

static uint64_t next_random(void) {
    uint64_t bits = seed += 0x9E3779B97F4A7C15u;
    bits = (bits ^ (bits >> 30)) * 0xBF58476D1CE4E5B9u;
    bits = (bits ^ (bits >> 27)) * 0x94D049BB133111EBu;
    return bits ^ (bits >> 31);
}

/* 0 to most. */
static off_t up_to(off_t most) { return (off_t)(next_random() % (uint64_t)(most + 1)); }

static void give_up(const char *what) {
    dprintf(STDERR_FILENO, "crash.c: %s: %s\n", what, strerror(errno));
    syscall(SYS_exit_group, 99);
}

static int status_of(int fd, struct stat *status) { return (int)syscall(SYS_fstat, fd, status); }

static int is_there(const char *path) {
    struct stat status;
    return syscall(SYS_newfstatat, AT_FDCWD, path, &status, AT_SYMLINK_NOFOLLOW) == 0;
}

/* The bytes of a file, from its start. */
static char *contents(int fd, off_t length) {
    char *bytes = malloc((size_t)length + 1);
    if (bytes == NULL || pread(fd, bytes, (size_t)length, 0) != length)
        give_up("a file could not be read");
    return bytes;
}

/* Before the first write to a file since it was synced. */
static void note_write(int fd) {
    struct stat status;
    char path[64];
    int i;
    if (!power || status_of(fd, &status) != 0 || !S_ISREG(status.st_mode))
        return;
    for (i = 0; i < file_count; i++)
        if (files[i].device == status.st_dev && files[i].inode == status.st_ino)
            return;
    if (file_count == MOST)
        give_up("too many files");
    snprintf(path, sizeof path, "/proc/self/fd/%d", fd);
    files[i].device = status.st_dev;
    files[i].inode = status.st_ino;
    files[i].fd = (int)syscall(SYS_openat, AT_FDCWD, path, O_RDWR | O_CLOEXEC, 0);
    if (files[i].fd < 0)
        give_up(path);
    files[i].length = status.st_size;
    files[i].bytes = contents(files[i].fd, status.st_size);
    file_count++;
}

static void drop_file(int i) {
    close(files[i].fd);
    free(files[i].bytes);
    files[i] = files[--file_count];
}

/* After a file or a folder was synced. */
static void note_synced(int fd) {
    struct stat status;
    int i, stay = 0;
    if (!power || status_of(fd, &status) != 0)
        return;
    for (i = file_count - 1; i >= 0; i--)
        if (files[i].device == status.st_dev && files[i].inode == status.st_ino)
            drop_file(i);
    for (i = 0; i < change_count; i++)
        if (changes[i].device != status.st_dev || changes[i].folder != status.st_ino)
            changes[stay++] = changes[i];
    change_count = stay;
}

/* Before a file is made, renamed or removed: the link to what is there. Kept only once the call has succeeded. */
static struct change *prepare_change(const char *from, const char *to) {
    struct change *change = &changes[change_count];
    char folder[PATH_MAX];
    struct stat status;
    if (!power)
        return NULL;
    if (change_count == MOST - 1)
        give_up("too many changes of folders");
    memset(change, 0, sizeof *change);
    snprintf(change->from, PATH_MAX, "%s", from);
    snprintf(change->to, PATH_MAX, "%s", to);
    snprintf(folder, PATH_MAX, "%s", to);
    if (stat(dirname(folder), &status) != 0)
        return NULL;
    change->device = status.st_dev;
    change->folder = status.st_ino;
    if (is_there(to)) {
        snprintf(change->kept, PATH_MAX, "%s/%d-%d", keep, (int)getpid(), kept_count++);
        if (syscall(SYS_linkat, AT_FDCWD, to, AT_FDCWD, change->kept, 0) != 0)
            change->kept[0] = 0;
    }
    return change;
}

static void note_change(struct change *change, int done) {
    if (change != NULL && done)
        change_count++;
}

/* As if it had never been. */
static void undo(const struct change *change) {
    if (change->from[0] != 0)
        syscall(SYS_rename, change->to, change->from);
    else
        syscall(SYS_unlink, change->to);
    if (change->kept[0] != 0 && syscall(SYS_linkat, AT_FDCWD, change->kept, AT_FDCWD, change->to, 0) != 0)
        give_up("a file could not be put back");
}

static void put(int fd, const char *bytes, off_t from, off_t to) {
    if (syscall(SYS_pwrite64, fd, bytes + from, (size_t)(to - from), from) != to - from)
        give_up("a file could not be spoiled");
}

/* Sectors of 512 bytes as they were or as they are. */
static void mix(const struct unsynced *file, off_t length) {
    off_t place;
    for (place = 0; place < file->length && place < length; place += 512)
        if (next_random() & 1) {
            off_t end = place + 512;
            end = end < length ? end : length;
            put(file->fd, file->bytes, place, end < file->length ? end : file->length);
        }
}

static void fill(const struct unsynced *file, off_t length, int garbage) {
    char *bytes = contents(file->fd, length);
    off_t from = up_to(length), to = from + up_to(length - from), place;
    for (place = from; place < to; place++)
        bytes[place] = garbage ? (char)next_random() : 0;
    put(file->fd, bytes, from, to);
    free(bytes);
}

/* What is left of a file's bytes: those that were synced, all of them, some of them, a mixture, zeros, or anything. */
static void spoil(const struct unsynced *file) {
    struct stat status;
    if (status_of(file->fd, &status) != 0)
        give_up("a file could not be looked at");
    switch (next_random() % 7) {
    case 0:
        put(file->fd, file->bytes, 0, file->length);
        if (syscall(SYS_ftruncate, file->fd, file->length) != 0)
            give_up("a file could not be cut");
        break;
    case 1:
        break;
    case 2:
    case 3:
        if (syscall(SYS_ftruncate, file->fd, next_random() & 1 ? 0 : up_to(status.st_size)) != 0)
            give_up("a file could not be cut");
        break;
    case 4:
        mix(file, status.st_size);
        break;
    case 5:
        fill(file, status.st_size, 0);
        break;
    default:
        fill(file, status.st_size, 1);
    }
}

/* Changes of folders are lost from some one on; then bytes of files. */
static void lose_power(void) {
    int stay = (int)up_to(change_count), i;
    for (i = change_count - 1; i >= stay; i--)
        undo(&changes[i]);
    for (i = 0; i < file_count; i++)
        spoil(&files[i]);
    change_count = file_count = 0;
}

static void die(void) {
    if (power)
        lose_power();
    syscall(SYS_kill, getpid(), SIGKILL);
    for (;;)
        pause();
}

static long number_of(const char *name) {
    const char *text = getenv(name);
    return text == NULL ? 0 : strtol(text, NULL, 10);
}

__attribute__((constructor)) static void begin(void) {
    const char *program = getenv("FAULT_PROGRAM"), *word = getenv("FAULT_KIND"), *path = getenv("FAULT_TRACE");
    unsigned i;
    if (program == NULL || strcmp(program, program_invocation_short_name) != 0)
        return;
    for (i = 0; word != NULL && i < sizeof kinds / sizeof *kinds; i++)
        if (strcmp(word, kinds[i]) == 0)
            kind = (enum kind)i;
    at = number_of("FAULT_AT");
    error = (int)number_of("FAULT_ERRNO");
    read_limit = number_of("FAULT_READ");
    seed = (uint64_t)number_of("FAULT_POWER");
    keep = getenv("FAULT_KEEP");
    power = getenv("FAULT_POWER") != NULL && keep != NULL;
    if (path != NULL)
        trace = (int)syscall(SYS_openat, AT_FDCWD, path, O_WRONLY | O_CREAT | O_APPEND | O_CLOEXEC, 0666);
    active = 1;
}

__attribute__((destructor)) static void end(void) {
    if (active && power && at > count)
        lose_power();
}

void _exit(int status) {
    end();
    for (;;)
        syscall(SYS_exit_group, status);
}

/* Counts a call; 0 if it is to fail. */
static int step(const char *name, const char *what) {
    char line[PATH_MAX + 64];
    int length;
    if (!active)
        return 1;
    count++;
    length = snprintf(line, sizeof line, "%ld %s %s\n", count, name, what);
    if (trace >= 0)
        syscall(SYS_write, trace, line, length);
    if (count == at && kind == BEFORE)
        die();
    if (count == at && kind == LASTING)
        snprintf(lasting_name, sizeof lasting_name, "%s", name);
    if ((count == at && kind == FAIL) || strcmp(lasting_name, name) == 0) {
        errno = error;
        return 0;
    }
    return 1;
}

static int step_fd(const char *name, int fd) {
    char what[16];
    snprintf(what, sizeof what, "%d", fd);
    return step(name, what);
}

/* After a call: its result, with errno as it was. */
static long done(long result) {
    int kept = errno;
    if (active && count == at && kind == AFTER)
        die();
    errno = kept;
    return result;
}

/* How many of a write's bytes are written: half of them at the place of a half or short one. */
static size_t share(int fd, size_t length) {
    if (!active || count != at || (kind != HALF && kind != SHORT))
        return length;
    if (kind == SHORT)
        short_fd = fd;
    return length / 2;
}

ssize_t write(int fd, const void *bytes, size_t length) {
    ssize_t written;
    int was_short = short_fd == fd;
    if (!step_fd(fd == STDOUT_FILENO || fd == STDERR_FILENO ? "print" : "write", fd))
        return -1;
    if (was_short) {
        errno = error;
        return -1;
    }
    note_write(fd);
    written = syscall(SYS_write, fd, bytes, share(fd, length));
    if (active && count == at && kind == HALF)
        die();
    return done(written);
}

ssize_t pwrite(int fd, const void *bytes, size_t length, off_t place) {
    if (!step_fd("pwrite", fd))
        return -1;
    note_write(fd);
    return done(syscall(SYS_pwrite64, fd, bytes, share(fd, length), place));
}

ssize_t pwrite64(int fd, const void *bytes, size_t length, off64_t place) { return pwrite(fd, bytes, length, place); }

ssize_t writev(int fd, const struct iovec *parts, int number) {
    if (!step_fd("writev", fd))
        return -1;
    note_write(fd);
    return done(syscall(SYS_writev, fd, parts, number));
}

ssize_t read(int fd, void *bytes, size_t length) {
    if (!step_fd("read", fd))
        return -1;
    if (active && fd == STDIN_FILENO && read_limit > 0 && length > (size_t)read_limit)
        length = (size_t)read_limit;
    return done(syscall(SYS_read, fd, bytes, length));
}

int fsync(int fd) {
    int result;
    if (!step_fd("fsync", fd))
        return -1;
    result = (int)syscall(SYS_fsync, fd);
    if (result == 0)
        note_synced(fd);
    return (int)done(result);
}

int fdatasync(int fd) { return fsync(fd); }

int ftruncate(int fd, off_t length) {
    if (!step_fd("ftruncate", fd))
        return -1;
    note_write(fd);
    return (int)done(syscall(SYS_ftruncate, fd, length));
}

int ftruncate64(int fd, off64_t length) { return ftruncate(fd, length); }

int fchmod(int fd, mode_t mode) {
    if (!step_fd("fchmod", fd))
        return -1;
    return (int)done(syscall(SYS_fchmod, fd, mode));
}

int fstat(int fd, struct stat *status) {
    if (!step_fd("fstat", fd))
        return -1;
    return (int)done(syscall(SYS_fstat, fd, status));
}

int renameat2(int from_folder, const char *from, int to_folder, const char *to, unsigned flags) {
    struct change *change;
    int result;
    if (!step("rename", to))
        return -1;
    change = prepare_change(from, to);
    result = (int)syscall(SYS_renameat2, from_folder, from, to_folder, to, flags);
    note_change(change, result == 0);
    return (int)done(result);
}

int rename(const char *from, const char *to) { return renameat2(AT_FDCWD, from, AT_FDCWD, to, 0); }

int renameat(int from_folder, const char *from, int to_folder, const char *to) {
    return renameat2(from_folder, from, to_folder, to, 0);
}

int linkat(int from_folder, const char *from, int to_folder, const char *to, int flags) {
    struct change *change;
    int result;
    if (!step("link", to))
        return -1;
    change = prepare_change("", to);
    result = (int)syscall(SYS_linkat, from_folder, from, to_folder, to, flags);
    note_change(change, result == 0);
    return (int)done(result);
}

int link(const char *from, const char *to) { return linkat(AT_FDCWD, from, AT_FDCWD, to, 0); }

int unlink(const char *path) {
    struct change *change;
    int result;
    if (!step("unlink", path))
        return -1;
    change = prepare_change("", path);
    result = (int)syscall(SYS_unlink, path);
    note_change(change, result == 0);
    return (int)done(result);
}

/* One that may make a file or cut it is counted apart from one that only looks a file up. */
static int open_counted(int folder, const char *path, int flags, mode_t mode) {
    int changes = (flags & (O_CREAT | O_TRUNC)) != 0, made = (flags & O_CREAT) && !is_there(path), result;
    struct change *change = NULL;
    if (!step(changes ? "create" : "open", path))
        return -1;
    if (active && made)
        change = prepare_change("", path);
    if (active && power && (flags & O_TRUNC) && !made) {
        int fd = (int)syscall(SYS_openat, folder, path, O_RDONLY | O_CLOEXEC, 0);
        note_write(fd);
        close(fd);
    }
    result = (int)syscall(SYS_openat, folder, path, flags, mode);
    note_change(change, result >= 0);
    return (int)done(result);
}

#define MODE                                                                                                                       \
    mode_t mode = 0;                                                                                                               \
    va_list list;                                                                                                                  \
    va_start(list, flags);                                                                                                         \
    if (flags & (O_CREAT | O_TMPFILE))                                                                                             \
        mode = va_arg(list, mode_t);                                                                                               \
    va_end(list)

int open(const char *path, int flags, ...) {
    MODE;
    return open_counted(AT_FDCWD, path, flags, mode);
}

int open64(const char *path, int flags, ...) {
    MODE;
    return open_counted(AT_FDCWD, path, flags, mode);
}

int openat(int folder, const char *path, int flags, ...) {
    MODE;
    return open_counted(folder, path, flags, mode);
}

int openat64(int folder, const char *path, int flags, ...) {
    MODE;
    return open_counted(folder, path, flags, mode);
}
