// Preloaded by `failing_calls`: a read of standard input or of a file moves at most CUT bytes, and so does a write of
// standard output or to a file. The read of standard input with the number FAILING_READ fails, the write of standard
// output with the number FAILING_WRITE, and the call on a file with the number FAILING_FILE, which is one of open, statx,
// read, write, fchmod, fsync, rename and unlink; with the error FAULT, or by the end of the program where KILLED is set. The
// name of that file is written to the open file TOLD.
#define _GNU_SOURCE
#include <errno.h>
#include <fcntl.h>
#include <signal.h>
#include <stdarg.h>
#include <stdlib.h>
#include <string.h>
#include <sys/stat.h>
#include <sys/syscall.h>
#include <unistd.h>

#define FILES 64

static size_t file_calls;
static char names[FILES][64];

static size_t number(const char *name, size_t other) {
    const char *value = getenv(name);
    return value ? strtoul(value, NULL, 10) : other;
}

static int fails(size_t count, const char *failing) {
    if (count != number(failing, 0)) return 0;
    errno = (int)number("FAULT", EIO);
    return 1;
}

static int file_fails(const char *name) {
    if (++file_calls != number("FAILING_FILE", 0)) return 0;
    int told = (int)number("TOLD", 0);
    if (told > 0 && syscall(SYS_write, told, name, strlen(name)) < 0) _exit(99);
    if (getenv("KILLED")) kill(getpid(), SIGKILL);
    errno = (int)number("FAULT", EIO);
    return 1;
}

static int is_file(int file) { return file > STDERR_FILENO && file < FILES && names[file][0]; }

int open(const char *name, int flags, ...) {
    va_list words;
    va_start(words, flags);
    mode_t mode = va_arg(words, mode_t);
    va_end(words);
    if (file_fails(name)) return -1;
    int file = (int)syscall(SYS_openat, AT_FDCWD, name, flags, mode);
    if (file >= 0 && file < FILES) strncpy(names[file], name, sizeof names[file] - 1);
    return file;
}

int statx(int file, const char *restrict name, int flags, unsigned mask, struct statx *restrict found) {
    if (is_file(file) ? file_fails(names[file]) : file == AT_FDCWD && file_fails(name)) return -1;
    return (int)syscall(SYS_statx, file, name, flags, mask, found);
}

int fchmod(int file, mode_t mode) {
    if (is_file(file) && file_fails(names[file])) return -1;
    return (int)syscall(SYS_fchmod, file, mode);
}

int fsync(int file) {
    if (is_file(file) && file_fails(names[file])) return -1;
    return (int)syscall(SYS_fsync, file);
}

int rename(const char *from, const char *to) {
    if (file_fails(to)) return -1;
    return (int)syscall(SYS_rename, from, to);
}

int unlink(const char *name) {
    if (file_fails(name)) return -1;
    return (int)syscall(SYS_unlink, name);
}

static size_t cut(size_t size) {
    size_t most = number("CUT", size);
    return size < most ? size : most;
}

ssize_t read(int file, void *bytes, size_t size) {
    static size_t reads;
    if (file == STDIN_FILENO ? fails(++reads, "FAILING_READ") : is_file(file) && file_fails(names[file])) return -1;
    return syscall(SYS_read, file, bytes, cut(size));
}

ssize_t write(int file, const void *bytes, size_t size) {
    static size_t writes;
    if (file == STDOUT_FILENO ? fails(++writes, "FAILING_WRITE") : is_file(file) && file_fails(names[file])) return -1;
    return syscall(SYS_write, file, bytes, cut(size));
}
