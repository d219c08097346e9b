// tools/torture loads this library before the C library. It refuses a request for memory, and makes calls on one file
// fail by a plan.
//
// REFUSE is the number of the request for memory to refuse, and the file REFUSED is created then. WATCHED is the file
// whose calls fail, and PLAN says which of them. TRACED is the file that gets a line for each call on WATCHED, in
// order: kind, place, bytes asked for, bytes moved, error, and for a write the bytes in hexadecimal. Kinds: a open, d
// second handle, h shared lock (other readers may hold it too), x exclusive lock, l length, p place, r read, w write, s
// sync, c cut.
// A write to standard output is traced as kind o, and never fails.
#define _GNU_SOURCE
#include <errno.h>
#include <fcntl.h>
#include <pthread.h>
#include <stdarg.h>
#include <stdio.h>
#include <stdlib.h>
#include <string.h>
#include <sys/file.h>
#include <sys/stat.h>
#include <sys/syscall.h>
#include <unistd.h>

// A call, by its kind and its number among the calls of that kind. It moves at most `most` bytes; a sync or a cut is
// made only if `most` isn't 0. The call fails with `error`, or, if that is 0, returns how many bytes it moved.
struct failing { char kind; long number, most; int error; };
static struct failing plan[16];
static int planned;
static long calls[128];
static char watched[1024];
static const char *path;
static int trace = -1;
static pthread_mutex_t turn = PTHREAD_MUTEX_INITIALIZER;
static long left;

__attribute__((constructor)) static void start(void) {
    const char *text = getenv("REFUSE");
    left = text ? atol(text) : 0;
    path = getenv("WATCHED");
    if (!path) return;
    int fd = syscall(SYS_openat, AT_FDCWD, getenv("TRACED"), O_CREAT | O_TRUNC | O_APPEND | O_WRONLY | O_CLOEXEC, 0600);
    trace = syscall(SYS_fcntl, fd, F_DUPFD_CLOEXEC, 100);
    syscall(SYS_close, fd);
    text = getenv("PLAN");
    for (int n; planned < 16; text += n) {
        struct failing *f = plan + planned;
        if (sscanf(text, " %c:%ld:%ld:%d%n", &f->kind, &f->number, &f->most, &f->error, &n) != 4) break;
        planned++;
    }
}

// Memory.

static int refuse(void) {
    if (left == 0 || __atomic_sub_fetch(&left, 1, __ATOMIC_SEQ_CST) != 0) return 0;
    syscall(SYS_close, syscall(SYS_openat, AT_FDCWD, getenv("REFUSED"), O_CREAT | O_WRONLY, 0600));
    errno = ENOMEM;
    return 1;
}
extern void *__libc_malloc(size_t), *__libc_calloc(size_t, size_t), *__libc_realloc(void *, size_t), *__libc_memalign(size_t, size_t);
void *malloc(size_t n) { return refuse() ? 0 : __libc_malloc(n); }
void *calloc(size_t n, size_t m) { return refuse() ? 0 : __libc_calloc(n, m); }
void *realloc(void *p, size_t n) { return refuse() ? 0 : __libc_realloc(p, n); }
void *aligned_alloc(size_t a, size_t n) { return refuse() ? 0 : __libc_memalign(a, n); }
int posix_memalign(void **p, size_t a, size_t n) { return refuse() || !(*p = __libc_memalign(a, n)) ? ENOMEM : 0; }

// The file. Each of its calls is made and traced in one turn, so that the trace has them in the order in which they were made.

static int is_watched(int fd) { return fd >= 0 && fd < 1024 && watched[fd]; }

static void watch(int fd) {
    if (fd >= 0 && fd < 1024) watched[fd] = 1;
}

static void note(char kind, long at, long asked, long moved, int error, const unsigned char *bytes) {
    static char line[16384];
    if (bytes && asked > 8000) abort();
    int n = sprintf(line, "%c %ld %ld %ld %d ", kind, at, asked, moved, error);
    for (long i = 0; bytes && i < asked; i++) n += sprintf(line + n, "%02x", bytes[i]);
    line[n++] = '\n';
    if (syscall(SYS_write, trace, line, n) != n) abort();
}

// What the plan has for the next call of a kind, or else a call that doesn't fail.
static struct failing next(char kind) {
    long number = ++calls[(int)kind];
    for (int i = 0; i < planned; i++)
        if (plan[i].kind == kind && plan[i].number == number) return plan[i];
    return (struct failing){kind, number, 1L << 40, 0};
}

// Ends a call that moved or made so much, or that the system itself failed (`made` below 0).
static long ended(struct failing f, long at, long asked, long made, const void *bytes) {
    int error = made < 0 ? errno : f.error;
    note(f.kind, at, asked, made < 0 ? 0 : made, error, bytes);
    pthread_mutex_unlock(&turn);
    errno = error;
    return error ? -1 : made;
}

static struct failing begun(char kind) {
    pthread_mutex_lock(&turn);
    return next(kind);
}

static long least(long a, long b) { return a < b ? a : b; }

static int opened(int folder, const char *name, int flags, int mode) {
    if (!path || strcmp(name, path) != 0) return syscall(SYS_openat, folder, name, flags, mode);
    struct failing f = begun('a');
    int fd = f.error ? 0 : syscall(SYS_openat, folder, name, flags, mode);
    if (!f.error) watch(fd);
    return ended(f, 0, 0, fd, 0);
}

int open(const char *name, int flags, ...) {
    va_list rest;
    va_start(rest, flags);
    int mode = va_arg(rest, int);
    va_end(rest);
    return opened(AT_FDCWD, name, flags, mode);
}

int openat(int folder, const char *name, int flags, ...) {
    va_list rest;
    va_start(rest, flags);
    int mode = va_arg(rest, int);
    va_end(rest);
    return opened(folder, name, flags, mode);
}

int flock(int fd, int how) {
    if (!is_watched(fd)) return syscall(SYS_flock, fd, how);
    struct failing f = begun(how & LOCK_SH ? 'h' : 'x');
    return ended(f, 0, 0, f.error ? 0 : syscall(SYS_flock, fd, how), 0);
}

int fcntl(int fd, int command, ...) {
    va_list rest;
    va_start(rest, command);
    long word = va_arg(rest, long);
    va_end(rest);
    if (!is_watched(fd) || (command != F_DUPFD_CLOEXEC && command != F_DUPFD)) return syscall(SYS_fcntl, fd, command, word);
    struct failing f = begun('d');
    int second = f.error ? 0 : syscall(SYS_fcntl, fd, command, word);
    if (!f.error) watch(second);
    return ended(f, 0, 0, second, 0);
}

int close(int fd) {
    if (is_watched(fd)) watched[fd] = 0;
    return syscall(SYS_close, fd);
}

int statx(int folder, const char *restrict name, int flags, unsigned mask, struct statx *restrict found) {
    if (!is_watched(folder) || *name) return syscall(SYS_statx, folder, name, flags, mask, found);
    struct failing f = begun('l');
    return ended(f, 0, 0, f.error ? 0 : syscall(SYS_statx, folder, name, flags, mask, found), 0);
}

off_t lseek(int fd, off_t at, int whence) {
    if (!is_watched(fd)) return syscall(SYS_lseek, fd, at, whence);
    struct failing f = begun('p');
    return ended(f, at, 0, f.error ? 0 : syscall(SYS_lseek, fd, at, whence), 0);
}

ssize_t read(int fd, void *into, size_t room) {
    if (!is_watched(fd)) return syscall(SYS_read, fd, into, room);
    struct failing f = begun('r');
    long at = syscall(SYS_lseek, fd, 0L, SEEK_CUR);
    return ended(f, at, room, f.error ? 0 : syscall(SYS_read, fd, into, least(f.most, room)), 0);
}

ssize_t write(int fd, const void *bytes, size_t asked) {
    if (is_watched(fd)) {
        struct failing f = begun('w');
        long at = syscall(SYS_lseek, fd, 0L, SEEK_CUR), most = least(f.most, asked);
        return ended(f, at, asked, most ? syscall(SYS_write, fd, bytes, most) : 0, bytes);
    }
    if (fd == 1 && trace >= 0) {
        pthread_mutex_lock(&turn);
        note('o', 0, asked, 0, 0, 0);
        pthread_mutex_unlock(&turn);
    }
    return syscall(SYS_write, fd, bytes, asked);
}

static int synced(int fd, long call) {
    if (!is_watched(fd)) return syscall(call, fd);
    struct failing f = begun('s');
    int made = f.most ? syscall(call, fd) : 0;
    return ended(f, 0, 0, made < 0 ? made : f.most > 0, 0) < 0 ? -1 : 0;
}
int fdatasync(int fd) { return synced(fd, SYS_fdatasync); }
int fsync(int fd) { return synced(fd, SYS_fsync); }

int ftruncate(int fd, off_t len) {
    if (!is_watched(fd)) return syscall(SYS_ftruncate, fd, len);
    struct failing f = begun('c');
    int made = f.most ? syscall(SYS_ftruncate, fd, len) : 0;
    return ended(f, len, 0, made < 0 ? made : f.most > 0, 0) < 0 ? -1 : 0;
}
