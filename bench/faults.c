/* A library to be preloaded: it counts the calls on files in FAULTS_ROOM, lets call number FAULTS_AT fail in the way
   FAULTS_WAY, and tells each call in the file FAULTS_LOG. A line of it has the name of the call, its number (0 where it is
   not counted), its answer, its descriptor, an offset, length or flag, how many bytes follow the line, and its paths. The
   clock stands still. bench/faults.py says what the ways are for, and reads the log. */
#define _GNU_SOURCE
#include <dlfcn.h>
#include <errno.h>
#include <fcntl.h>
#include <stdarg.h>
#include <stdio.h>
#include <stdlib.h>
#include <string.h>
#include <sys/stat.h>
#include <sys/syscall.h>
#include <sys/uio.h>
#include <time.h>
#include <unistd.h>

enum { LOG = 900, FDS = 1024 };
enum kind { LOOKS, CHANGES, WRITES };
enum { HALF = -1, TORN = -2 }; /* half of the bytes are written, and the call answers so, or fails */

static const char *room, *way = "";
static long at, calls;
static int logs;
static char inside[FDS]; /* which descriptors are of files below the room */

__attribute__((constructor)) static void begin(void) {
    const char *log = getenv("FAULTS_LOG"), *number = getenv("FAULTS_AT");
    room = getenv("FAULTS_ROOM");
    at = number ? atol(number) : 0;
    if (getenv("FAULTS_WAY")) way = getenv("FAULTS_WAY");
    int fd = log ? (int)syscall(SYS_open, log, O_WRONLY | O_CREAT | O_TRUNC | O_APPEND, 0600) : -1;
    if (fd < 0) return;
    logs = syscall(SYS_dup3, fd, LOG, O_CLOEXEC) == LOG;
    syscall(SYS_close, fd);
}

static int below(const char *path) {
    size_t n = room ? strlen(room) : 0;
    return n && !strncmp(path, room, n) && (path[n] == 0 || path[n] == '/');
}
static int is_inside(int fd) { return fd >= 0 && fd < FDS && inside[fd]; }
static int is(const char *name) { return !strcmp(way, name); }
static long failed(int error) { errno = error; return -1; }

/* The errno of the fault that this call meets, HALF or TORN; 0 where it meets none. */
static int fault(int counts, enum kind kind) {
    if (!counts) return 0;
    long number = __atomic_add_fetch(&calls, 1, __ATOMIC_SEQ_CST);
    if (at == 0 || number < at) return 0;
    if (is("dead")) return EIO;
    if (is("full")) return kind == LOOKS ? 0 : ENOSPC;
    if (number > at) return 0;
    if (is("slow")) return usleep(50000), 0;
    if (is("half") || is("torn")) return kind != WRITES ? 0 : is("half") ? HALF : TORN;
    return is("enospc") ? ENOSPC : is("eintr") ? EINTR : EIO;
}

/* Tells a call, and passes its answer on. */
static long tell(const char *name, int counts, long answer, int fd, long number, const char *path, const void *bytes) {
    int error = errno;
    char line[2048];
    size_t len = bytes && answer > 0 ? (size_t)answer : 0;
    int n = snprintf(line, sizeof line, "%s %ld %ld %d %ld %zu %s\n", name, counts ? calls : 0, answer, fd, number, len, path);
    struct iovec parts[2] = {{line, (size_t)n}, {(void *)bytes, len}};
    if (logs && (counts || fd == 1)) syscall(SYS_writev, LOG, parts, 2);
    errno = error;
    return answer;
}

/* A call on a path, and one on a descriptor. */
#define ON_PATH(type, name, kind, params, path, ...)                        \
    type name params {                                                     \
        int counts = below(path), error = fault(counts, kind);             \
        long answer = error ? failed(error) : syscall(__VA_ARGS__);        \
        return (type)tell(#name, counts, answer, -1, 0, path, 0);          \
    }
#define ON_FD(type, name, kind, params, number, ...)                        \
    type name params {                                                     \
        int counts = is_inside(fd), error = fault(counts, kind);           \
        long answer = error ? failed(error) : syscall(__VA_ARGS__);        \
        return (type)tell(#name, counts, answer, fd, (long)(number), "", 0); \
    }

ON_PATH(int, mkdir, CHANGES, (const char *path, mode_t mode), path, SYS_mkdir, path, mode)
ON_PATH(int, unlink, LOOKS, (const char *path), path, SYS_unlink, path)
ON_FD(int, fsync, CHANGES, (int fd), 0, SYS_fsync, fd)
ON_FD(int, fdatasync, CHANGES, (int fd), 0, SYS_fdatasync, fd)
ON_FD(int, ftruncate, CHANGES, (int fd, off_t length), length, SYS_ftruncate, fd, length)
ON_FD(int, fchmod, LOOKS, (int fd, mode_t mode), mode, SYS_fchmod, fd, mode)
ON_FD(int, fchown, LOOKS, (int fd, uid_t user, gid_t group), user, SYS_fchown, fd, user, group)
ON_FD(int, posix_fadvise, LOOKS, (int fd, off_t from, off_t n, int advice), from, SYS_fadvise64, fd, from, n, advice)
ON_FD(int, flock, LOOKS, (int fd, int how), how, SYS_flock, fd, how)
ON_FD(off_t, lseek, LOOKS, (int fd, off_t to, int whence), whence, SYS_lseek, fd, to, whence)
ON_FD(ssize_t, read, LOOKS, (int fd, void *bytes, size_t n), n, SYS_read, fd, bytes, n)
ON_FD(ssize_t, pread, LOOKS, (int fd, void *bytes, size_t n, off_t from), from, SYS_pread64, fd, bytes, n, from)
ON_FD(ssize_t, getdents64, LOOKS, (int fd, void *bytes, size_t n), n, SYS_getdents64, fd, bytes, n)

int rename(const char *from, const char *to) {
    char paths[1500];
    int counts = below(from), error = fault(counts, CHANGES);
    snprintf(paths, sizeof paths, "%s %s", from, to);
    return (int)tell("rename", counts, error ? failed(error) : syscall(SYS_rename, from, to), -1, 0, paths, 0);
}

int statx(int dir, const char *path, int flags, unsigned mask, struct statx *found) {
    int counts = *path ? below(path) : is_inside(dir), error = fault(counts, LOOKS);
    return (int)tell("statx", counts, error ? failed(error) : syscall(SYS_statx, dir, path, flags, mask, found), dir, 0, path, 0);
}

char *realpath(const char *path, char *found) {
    char *(*real)(const char *, char *) = (char *(*)(const char *, char *))dlsym(RTLD_NEXT, "realpath");
    int counts = below(path), error = fault(counts, LOOKS);
    char *answer = error ? (failed(error), (char *)0) : real(path, found);
    tell("realpath", counts, answer ? 0 : -1, -1, 0, path, 0);
    return answer;
}

/* What a call with words that may be left out has as the next one. */
#define NEXT(type, word, last) va_list rest; va_start(rest, last); type word = va_arg(rest, type); va_end(rest)

int fcntl(int fd, int command, ...) {
    NEXT(long, word, command);
    int counts = is_inside(fd), error = fault(counts, LOOKS);
    return (int)tell("fcntl", counts, error ? failed(error) : syscall(SYS_fcntl, fd, command, word), fd, command, "", 0);
}

/* A file is closed also where the call fails. */
int close(int fd) {
    int counts = is_inside(fd), error = fault(counts, LOOKS);
    long answer = syscall(SYS_close, fd);
    if (fd >= 0 && fd < FDS) inside[fd] = 0;
    return (int)tell("close", counts, error ? failed(error) : answer, fd, 0, "", 0);
}

/* The number that is told is 1 where the file is made. */
static int opened(int dir, const char *path, int flags, mode_t mode) {
    int counts = below(path), makes = flags & O_CREAT && syscall(SYS_access, path, F_OK);
    int error = fault(counts, makes ? CHANGES : LOOKS);
    long fd = error ? failed(error) : syscall(SYS_openat, dir, path, flags, flags & O_CREAT ? mode : 0);
    if (fd >= 0 && fd < FDS) inside[fd] = (char)counts;
    return (int)tell("open", counts, fd, (int)fd, makes, path, 0);
}
int open(const char *path, int flags, ...) { NEXT(mode_t, mode, flags); return opened(AT_FDCWD, path, flags, mode); }
int openat(int dir, const char *path, int flags, ...) { NEXT(mode_t, mode, flags); return opened(dir, path, flags, mode); }

static ssize_t written(const char *name, int fd, const void *bytes, size_t n, off_t to) {
    int counts = is_inside(fd), error = fault(counts, WRITES);
    size_t part = error < 0 ? (n + 1) / 2 : n;
    long answer = error > 0 ? failed(error) : to < 0 ? syscall(SYS_write, fd, bytes, part)
                                                     : syscall(SYS_pwrite64, fd, bytes, part, to);
    tell(name, counts, answer, fd, (long)to, "", bytes);
    return error == TORN ? failed(EIO) : answer;
}
ssize_t write(int fd, const void *bytes, size_t n) { return written("write", fd, bytes, n, -1); }
ssize_t __write(int fd, const void *bytes, size_t n) { return written("write", fd, bytes, n, -1); }
ssize_t pwrite(int fd, const void *bytes, size_t n, off_t to) { return written("pwrite", fd, bytes, n, to); }

int clock_gettime(clockid_t clock, struct timespec *now) {
    if (clock != CLOCK_REALTIME) return (int)syscall(SYS_clock_gettime, clock, now);
    *now = (struct timespec){1700000000, 0};
    return 0;
}
