/* Tells the calls of a program on its files, in lines of strace's form. LD_PRELOAD has it loaded
 * before the C library of the program, so that it sees the calls by which the program asks the
 * system through that library. CALLS is the number of the file to which they are told. Where PATHS
 * is set, the number of a file has its path behind it. The program has one thread, and ends by
 * `exit`. */
#define _GNU_SOURCE
#include <fcntl.h>
#include <stdarg.h>
#include <stdio.h>
#include <stdlib.h>
#include <string.h>
#include <sys/syscall.h>
#include <sys/types.h>
#include <sys/uio.h>
#include <unistd.h>

enum { ROOM = 1 << 16, MOST_LINE = 1 << 10, MOST_FILES = 1 << 8, SHOWN = 16 };

static char told[ROOM];
static size_t length;
static char *paths[MOST_FILES];
static int file = -1, has_paths;

__attribute__((constructor)) static void start(void) {
    const char *number = getenv("CALLS");
    file = number ? atoi(number) : -1;
    has_paths = getenv("PATHS") != NULL;
}

__attribute__((destructor)) static void flush(void) {
    for (size_t at = 0; at < length;) {
        long count = syscall(SYS_write, file, told + at, length - at);
        if (count <= 0) abort();
        at += (size_t)count;
    }
    length = 0;
}

__attribute__((format(printf, 1, 2))) static void tell(const char *format, ...) {
    va_list words;
    if (length + MOST_LINE > ROOM) flush();
    va_start(words, format);
    length += (size_t)vsnprintf(told + length, MOST_LINE, format, words);
    va_end(words);
}

/* A file's number as it is told. */
static const char *named(int number) {
    static char name[MOST_LINE / 2];
    const char *path = number >= 0 && number < MOST_FILES ? paths[number] : NULL;
    if (has_paths && path != NULL)
        snprintf(name, sizeof name, "%d<%s>", number, path);
    else
        snprintf(name, sizeof name, has_paths ? "%d<>" : "%d", number);
    return name;
}

static void keep(long number, const char *path) {
    if (number < 0 || number >= MOST_FILES) return;
    free(paths[number]);
    paths[number] = path ? strdup(path) : NULL;
}

/* The first characters that are written to standard output; of no other file are they told. */
static const char *shown(int number, const void *bytes, size_t count) {
    static char text[2 * SHOWN + 1];
    size_t at = 0;
    for (size_t i = 0; number == 1 && i < count && i < SHOWN; i++) {
        char letter = ((const char *)bytes)[i];
        if (letter == '\n') text[at++] = '\\';
        text[at++] = letter == '\n' ? 'n' : letter;
    }
    text[at] = 0;
    return text;
}

static int opened(const char *path, int flags, mode_t mode) {
    long answer = syscall(SYS_openat, AT_FDCWD, path, flags, mode);
    keep(answer, path);
    tell("openat(AT_FDCWD, \"%s\", %s%#x) = %ld\n", path,
         flags & O_DSYNC ? "O_DSYNC|" : "", (unsigned)flags, answer);
    return (int)answer;
}

int open(const char *path, int flags, ...) {
    va_list words;
    va_start(words, flags);
    mode_t mode = flags & (O_CREAT | O_TMPFILE) ? va_arg(words, mode_t) : 0;
    va_end(words);
    return opened(path, flags, mode);
}

int open64(const char *path, int flags, ...) {
    va_list words;
    va_start(words, flags);
    mode_t mode = flags & (O_CREAT | O_TMPFILE) ? va_arg(words, mode_t) : 0;
    va_end(words);
    return opened(path, flags, mode);
}

int close(int number) {
    long answer = syscall(SYS_close, number);
    keep(number, NULL);
    return (int)answer;
}

ssize_t read(int number, void *bytes, size_t count) {
    long answer = syscall(SYS_read, number, bytes, count);
    tell("read(%s, \"\"..., %zu) = %ld\n", named(number), count, answer);
    return answer;
}

ssize_t write(int number, const void *bytes, size_t count) {
    long answer = syscall(SYS_write, number, bytes, count);
    const char *text = shown(number, bytes, count);
    tell("write(%s, \"%s\", %zu) = %ld\n", named(number), text, count, answer);
    return answer;
}

ssize_t __write(int number, const void *bytes, size_t count) { return write(number, bytes, count); }

ssize_t writev(int number, const struct iovec *parts, int count) {
    long answer = syscall(SYS_writev, number, parts, count);
    tell("writev(%s, [], %d) = %ld\n", named(number), count, answer);
    return answer;
}

ssize_t pread(int number, void *bytes, size_t count, off_t at) {
    long answer = syscall(SYS_pread64, number, bytes, count, at);
    tell("pread64(%s, \"\"..., %zu, %ld) = %ld\n", named(number), count, (long)at, answer);
    return answer;
}

ssize_t pwrite(int number, const void *bytes, size_t count, off_t at) {
    long answer = syscall(SYS_pwrite64, number, bytes, count, at);
    tell("pwrite64(%s, \"\"..., %zu, %ld) = %ld\n", named(number), count, (long)at, answer);
    return answer;
}

ssize_t pread64(int number, void *bytes, size_t count, off64_t at) {
    return pread(number, bytes, count, at);
}

ssize_t pwrite64(int number, const void *bytes, size_t count, off64_t at) {
    return pwrite(number, bytes, count, at);
}

off_t lseek(int number, off_t at, int from) {
    long answer = syscall(SYS_lseek, number, at, from);
    tell("lseek(%s, %ld, %d) = %ld\n", named(number), (long)at, from, answer);
    return answer;
}

int ftruncate(int number, off_t size) {
    long answer = syscall(SYS_ftruncate, number, size);
    tell("ftruncate(%s, %ld) = %ld\n", named(number), (long)size, answer);
    return (int)answer;
}

int ftruncate64(int number, off64_t size) { return ftruncate(number, size); }

int fdatasync(int number) {
    long answer = syscall(SYS_fdatasync, number);
    tell("fdatasync(%s) = %ld\n", named(number), answer);
    return (int)answer;
}

int fsync(int number) {
    long answer = syscall(SYS_fsync, number);
    tell("fsync(%s) = %ld\n", named(number), answer);
    return (int)answer;
}

int msync(void *at, size_t count, int flags) {
    long answer = syscall(SYS_msync, at, count, flags);
    tell("msync(%p, %zu, %d) = %ld\n", at, count, flags, answer);
    return (int)answer;
}

int unlink(const char *path) {
    long answer = syscall(SYS_unlink, path);
    tell("unlink(\"%s\") = %ld\n", path, answer);
    return (int)answer;
}

int rename(const char *from, const char *to) {
    long answer = syscall(SYS_rename, from, to);
    tell("rename(\"%s\", \"%s\") = %ld\n", from, to, answer);
    return (int)answer;
}

static int asked(int number, int what, void *word) {
    long answer = syscall(SYS_fcntl, number, what, word);
    if (what == F_DUPFD_CLOEXEC) {
        keep(answer, number < MOST_FILES ? paths[number] : NULL);
        tell("fcntl(%s, F_DUPFD_CLOEXEC) = %ld\n", named(number), answer);
    }
    return (int)answer;
}

int fcntl(int number, int what, ...) {
    va_list words;
    va_start(words, what);
    void *word = va_arg(words, void *);
    va_end(words);
    return asked(number, what, word);
}

int fcntl64(int number, int what, ...) {
    va_list words;
    va_start(words, what);
    void *word = va_arg(words, void *);
    va_end(words);
    return asked(number, what, word);
}
