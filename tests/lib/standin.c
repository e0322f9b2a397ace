// Stands between a program and the C library (LD_PRELOAD), counts its calls of one kind, and acts at one of them.
//
//   STANDIN_REFUSE=N  refuses the Nth call for memory, as if none were left.
//   STANDIN_STOP=N    kills the process before its Nth call that changes or flushes a file of a register.
//   STANDIN_LOSE=N    kills it there too, and leaves each file as it was when it was last flushed, or opened.
//   STANDIN_HALF=N    kills it in the midst of its Nth write to such a file, after half of the bytes.
//   STANDIN_FAIL=N    fails its Nth call that reads, changes or flushes such a file, as a disk with a fault does.
//   STANDIN_FAILS=N   fails that call and each behind it.
//   STANDIN_MARK=P    makes the file P where the Nth call came.
//   STANDIN_STARVE=P  refuses all memory between two reads of /dev/zero, and adds a line to the file P at the second
//                     one, which tells how often memory was asked for.
//
// Files of a register are those with ".db" in their names. Real calls go to the kernel, or to the C library's
// own allocator, so that nothing here needs memory.
#define _GNU_SOURCE
#include <errno.h>
#include <fcntl.h>
#include <signal.h>
#include <stdarg.h>
#include <stdio.h>
#include <stdlib.h>
#include <string.h>
#include <sys/syscall.h>
#include <sys/types.h>
#include <sys/uio.h>
#include <unistd.h>

extern void *__libc_malloc(size_t);
extern void *__libc_calloc(size_t, size_t);
extern void *__libc_realloc(void *, size_t);
extern void *__libc_memalign(size_t, size_t);

// The number of the call at which something is done, by the variable of this name; 0 where there is none.
static long number_of(const char *name) {
    const char *text = getenv(name);
    return text ? atol(text) : 0;
}

static void mark(void) {
    const char *path = getenv("STANDIN_MARK");
    if (path) syscall(SYS_close, syscall(SYS_openat, AT_FDCWD, path, O_CREAT | O_WRONLY, 0600));
}

// ---- memory

static long taken, refused = -1;
static long asked, is_starving;

static int is_refused(void) {
    if (is_starving) {
        asked++;
        errno = ENOMEM;
        return 1;
    }
    if (refused < 0) refused = number_of("STANDIN_REFUSE");
    if (refused == 0 || ++taken != refused) return 0;
    mark();
    errno = ENOMEM;
    return 1;
}

void *malloc(size_t size) { return is_refused() ? NULL : __libc_malloc(size); }
void *calloc(size_t count, size_t size) { return is_refused() ? NULL : __libc_calloc(count, size); }
void *realloc(void *old, size_t size) { return is_refused() ? NULL : __libc_realloc(old, size); }
void *memalign(size_t boundary, size_t size) { return is_refused() ? NULL : __libc_memalign(boundary, size); }
void *aligned_alloc(size_t boundary, size_t size) { return memalign(boundary, size); }

int posix_memalign(void **at, size_t boundary, size_t size) {
    void *made = memalign(boundary, size);
    if (made) *at = made;
    return made ? 0 : ENOMEM;
}

// Begins to refuse all memory, or ends it and tells how often some was asked for.
static void turn_starving(const char *path) {
    char line[32];
    is_starving = !is_starving;
    if (!is_starving) {
        int size = snprintf(line, sizeof line, "%ld\n", asked);
        int out = syscall(SYS_openat, AT_FDCWD, path, O_CREAT | O_WRONLY | O_APPEND, 0600);
        if (syscall(SYS_write, out, line, size) != size) abort();
        syscall(SYS_close, out);
    }
    asked = 0;
}

// ---- files

static long changes, stop = -1, writes, half = -1;

static int is_of_a_register(const char *path) {
    const char *name = strrchr(path, '/');
    return strstr(name ? name : path, ".db") != NULL;
}

// The path of an open file, in 4,096 bytes; whether it has one.
static int path_of(int fd, char *path) {
    char link[64];
    snprintf(link, sizeof link, "/proc/self/fd/%d", fd);
    ssize_t length = readlink(link, path, 4095);
    path[length < 0 ? 0 : length] = 0;
    return length >= 0;
}

static int is_fd_of_a_register(int fd) {
    char path[4096];
    return path_of(fd, path) && is_of_a_register(path);
}

// ---- what isn't flushed

enum { MOST = 8, LENGTH = 4096 };

// The files that were opened. What each was when it was last flushed, or opened, lies beside it.
static char names[MOST][LENGTH];
static int named;
static long lose = -1;

static int loses(void) {
    if (lose < 0) lose = number_of("STANDIN_LOSE");
    return lose > 0;
}

static void copy_file(const char *from, const char *to, int flags) {
    static char part[65536];
    int in = syscall(SYS_openat, AT_FDCWD, from, O_RDONLY);
    int out = syscall(SYS_openat, AT_FDCWD, to, O_CREAT | O_WRONLY | flags, 0600);
    ssize_t size = 0;
    while (in >= 0 && out >= 0 && (size = syscall(SYS_read, in, part, sizeof part)) > 0) {
        if (syscall(SYS_write, out, part, size) != size) abort();
    }
    syscall(SYS_close, in);
    syscall(SYS_close, out);
}

static const char *copy_of(const char *path) {
    static char name[LENGTH + 16];
    snprintf(name, sizeof name, "%s.flushed", path);
    return name;
}

static void note_opened(const char *path) {
    if (!loses() || !is_of_a_register(path)) return;
    copy_file(path, copy_of(path), O_EXCL);
    for (int at = 0; at < named; at++) {
        if (!strcmp(names[at], path)) return;
    }
    if (named == MOST) abort();
    snprintf(names[named++], LENGTH, "%s", path);
}

static void note_flushed(int fd) {
    char path[LENGTH];
    if (loses() && path_of(fd, path) && is_of_a_register(path)) copy_file(path, copy_of(path), O_TRUNC);
}

static void note_removed(const char *path) {
    if (loses() && is_of_a_register(path)) syscall(SYS_unlinkat, AT_FDCWD, copy_of(path), 0);
}

static void lose_what_is_not_flushed(void) {
    for (int at = 0; at < named; at++) {
        if (syscall(SYS_faccessat, AT_FDCWD, copy_of(names[at]), F_OK) == 0)
            copy_file(copy_of(names[at]), names[at], O_TRUNC);
    }
}

// ---- stops

static void stop_here(void) {
    mark();
    if (loses()) lose_what_is_not_flushed();
    syscall(SYS_kill, syscall(SYS_getpid), SIGKILL);
}

// Stops the process where this is the call at which it is to be stopped.
static void count_change(int counts) {
    if (stop < 0) stop = loses() ? lose : number_of("STANDIN_STOP");
    if (stop && counts && ++changes == stop) stop_here();
}

// How many bytes of a write are written before the process is stopped; -1 where it isn't in this write.
static ssize_t bytes_before_stop(int counts, size_t size) {
    count_change(counts);
    if (half < 0) half = number_of("STANDIN_HALF");
    return half && counts && ++writes == half ? (ssize_t)(size / 2) : -1;
}

static long calls, failing = -1, broken;

// Whether this call on a file fails.
static int fails(int counts) {
    if (failing < 0) {
        broken = number_of("STANDIN_FAILS");
        failing = broken ? broken : number_of("STANDIN_FAIL");
    }
    if (!failing || !counts || ++calls < failing || (calls > failing && !broken)) return 0;
    if (calls == failing) mark();
    errno = EIO;
    return 1;
}

static size_t size_of(const struct iovec *parts, int count) {
    size_t size = 0;
    for (int at = 0; at < count; at++) size += parts[at].iov_len;
    return size;
}

// Writes half of the bytes of the parts, each by itself, and stops the process. The offset is -1 where
// the file's own position is meant.
static void write_half(int fd, const struct iovec *parts, int count, ssize_t left, off_t offset) {
    for (int at = 0; at < count && left > 0; at++) {
        size_t size = parts[at].iov_len < (size_t)left ? parts[at].iov_len : (size_t)left;
        if (offset < 0) {
            syscall(SYS_write, fd, parts[at].iov_base, size);
        } else {
            syscall(SYS_pwrite64, fd, parts[at].iov_base, size, offset);
            offset += size;
        }
        left -= size;
    }
    stop_here();
}

// Whether a write fails; the process may be stopped in it.
static int before_write(int fd, const struct iovec *parts, int count, off_t offset) {
    int counts = is_fd_of_a_register(fd);
    ssize_t left = bytes_before_stop(counts, size_of(parts, count));
    if (left >= 0) write_half(fd, parts, count, left, offset);
    return fails(counts);
}

ssize_t write(int fd, const void *bytes, size_t size) {
    struct iovec part = {(void *)bytes, size};
    if (before_write(fd, &part, 1, -1)) return -1;
    return syscall(SYS_write, fd, bytes, size);
}

ssize_t pwrite64(int fd, const void *bytes, size_t size, off64_t offset) {
    struct iovec part = {(void *)bytes, size};
    if (before_write(fd, &part, 1, offset)) return -1;
    return syscall(SYS_pwrite64, fd, bytes, size, offset);
}

ssize_t pwrite(int fd, const void *bytes, size_t size, off_t offset) { return pwrite64(fd, bytes, size, offset); }

ssize_t writev(int fd, const struct iovec *parts, int count) {
    if (before_write(fd, parts, count, -1)) return -1;
    return syscall(SYS_writev, fd, parts, count);
}

ssize_t pwritev64(int fd, const struct iovec *parts, int count, off64_t offset) {
    if (before_write(fd, parts, count, offset)) return -1;
    return syscall(SYS_pwritev, fd, parts, count, offset, 0);
}

ssize_t pwritev(int fd, const struct iovec *parts, int count, off_t offset) {
    return pwritev64(fd, parts, count, offset);
}

// Where all memory is to be refused between two reads of /dev/zero, this may be one of them.
static void before_read(int fd) {
    char path[LENGTH];
    const char *told = getenv("STANDIN_STARVE");
    if (told && path_of(fd, path) && !strcmp(path, "/dev/zero")) turn_starving(told);
}

ssize_t read(int fd, void *bytes, size_t size) {
    before_read(fd);
    return fails(is_fd_of_a_register(fd)) ? -1 : syscall(SYS_read, fd, bytes, size);
}

ssize_t pread64(int fd, void *bytes, size_t size, off64_t offset) {
    return fails(is_fd_of_a_register(fd)) ? -1 : syscall(SYS_pread64, fd, bytes, size, offset);
}

ssize_t pread(int fd, void *bytes, size_t size, off_t offset) { return pread64(fd, bytes, size, offset); }

ssize_t readv(int fd, const struct iovec *parts, int count) {
    return fails(is_fd_of_a_register(fd)) ? -1 : syscall(SYS_readv, fd, parts, count);
}

ssize_t preadv64(int fd, const struct iovec *parts, int count, off64_t offset) {
    return fails(is_fd_of_a_register(fd)) ? -1 : syscall(SYS_preadv, fd, parts, count, offset, 0);
}

ssize_t preadv(int fd, const struct iovec *parts, int count, off_t offset) {
    return preadv64(fd, parts, count, offset);
}

// Whether a call fails that changes or flushes the file.
static int before_change(int fd) {
    int counts = is_fd_of_a_register(fd);
    count_change(counts);
    return fails(counts);
}

int ftruncate64(int fd, off64_t length) {
    return before_change(fd) ? -1 : syscall(SYS_ftruncate, fd, length);
}

int ftruncate(int fd, off_t length) { return ftruncate64(fd, length); }

static int flushed(int fd, long call) {
    if (before_change(fd)) return -1;
    int ended = syscall(call, fd);
    if (ended == 0) note_flushed(fd);
    return ended;
}

int fsync(int fd) { return flushed(fd, SYS_fsync); }
int fdatasync(int fd) { return flushed(fd, SYS_fdatasync); }

int unlink(const char *path) {
    count_change(is_of_a_register(path));
    note_removed(path);
    return syscall(SYS_unlinkat, AT_FDCWD, path, 0);
}

int unlinkat(int folder, const char *path, int flags) {
    count_change(is_of_a_register(path));
    note_removed(path);
    return syscall(SYS_unlinkat, folder, path, flags);
}

int rename(const char *from, const char *to) {
    count_change(is_of_a_register(from) || is_of_a_register(to));
    return syscall(SYS_renameat, AT_FDCWD, from, AT_FDCWD, to);
}

// Opening changes what is there where it may make or empty the file.
static int opened(int folder, const char *path, int flags, mode_t mode) {
    count_change((flags & (O_CREAT | O_TRUNC)) && is_of_a_register(path));
    int fd = syscall(SYS_openat, folder, path, flags, mode);
    if (fd >= 0) note_opened(path);
    return fd;
}

static mode_t mode_of(int flags, va_list words) { return flags & (O_CREAT | O_TMPFILE) ? va_arg(words, mode_t) : 0; }

int open64(const char *path, int flags, ...) {
    va_list words;
    va_start(words, flags);
    mode_t mode = mode_of(flags, words);
    va_end(words);
    return opened(AT_FDCWD, path, flags, mode);
}

int open(const char *path, int flags, ...) {
    va_list words;
    va_start(words, flags);
    mode_t mode = mode_of(flags, words);
    va_end(words);
    return opened(AT_FDCWD, path, flags, mode);
}

int openat64(int folder, const char *path, int flags, ...) {
    va_list words;
    va_start(words, flags);
    mode_t mode = mode_of(flags, words);
    va_end(words);
    return opened(folder, path, flags, mode);
}

int openat(int folder, const char *path, int flags, ...) {
    va_list words;
    va_start(words, flags);
    mode_t mode = mode_of(flags, words);
    va_end(words);
    return opened(folder, path, flags, mode);
}
