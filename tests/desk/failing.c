/* A call that fails, or in which a signal comes, for LD_PRELOAD. FAIL_CALL names the call (write, fsync, close, rename,
   copy, which is copy_file_range, pread, or lock, the fcntl that locks a file), FAIL_AT which one of them in the
   program's run, counted from 1. FAIL_ERRNO is the error, 0 for a call that does nothing and answers 0. A write or a
   copy that is to fail with FAIL_SHORT set first does half of what it is given, as a disk does that fills up. Where
   FAIL_SIGNAL is set, the call does not fail: the program is sent that signal just before it. Standard streams are let
   alone. */
#define _GNU_SOURCE
#include <dlfcn.h>
#include <errno.h>
#include <fcntl.h>
#include <signal.h>
#include <stdarg.h>
#include <stdlib.h>
#include <string.h>
#include <unistd.h>

static int calls;

/* Whether this call fails; errno is set then. */
static int fails(const char *name) {
    const char *call = getenv("FAIL_CALL"), *at = getenv("FAIL_AT"), *error = getenv("FAIL_ERRNO");
    const char *sign = getenv("FAIL_SIGNAL");
    if (!call || !at || strcmp(call, name) != 0 || ++calls < atoi(at)) return 0;
    if (sign && calls == atoi(at)) raise(atoi(sign));
    /* A full disk stays full, and a file system that cannot copy never can; the other calls fail once. */
    if (sign || (calls > atoi(at) && strcmp(name, "write") != 0 && strcmp(name, "copy") != 0)) return 0;
    errno = error ? atoi(error) : EIO;
    return 1;
}

ssize_t write(int fd, const void *from, size_t len) {
    ssize_t (*real)(int, const void *, size_t) = (ssize_t(*)(int, const void *, size_t))dlsym(RTLD_NEXT, "write");
    if (fd <= 2 || !fails("write")) return real(fd, from, len);
    int first = calls == atoi(getenv("FAIL_AT"));
    return getenv("FAIL_SHORT") && first && len > 1 ? real(fd, from, len / 2) : -1;
}

ssize_t copy_file_range(int from, off_t *at, int to, off_t *place, size_t len, unsigned flags) {
    ssize_t (*real)(int, off_t *, int, off_t *, size_t, unsigned) =
        (ssize_t(*)(int, off_t *, int, off_t *, size_t, unsigned))dlsym(RTLD_NEXT, "copy_file_range");
    if (!fails("copy")) return real(from, at, to, place, len, flags);
    int first = calls == atoi(getenv("FAIL_AT"));
    if (getenv("FAIL_SHORT") && first && len > 1) return real(from, at, to, place, len / 2, flags);
    return errno ? -1 : 0;
}

ssize_t pread(int fd, void *to, size_t len, off_t at) {
    ssize_t (*real)(int, void *, size_t, off_t) = (ssize_t(*)(int, void *, size_t, off_t))dlsym(RTLD_NEXT, "pread");
    return fails("pread") ? (errno ? -1 : 0) : real(fd, to, len, at);
}

int fsync(int fd) {
    int (*real)(int) = (int (*)(int))dlsym(RTLD_NEXT, "fsync");
    return fails("fsync") ? -1 : real(fd);
}

int close(int fd) {
    int (*real)(int) = (int (*)(int))dlsym(RTLD_NEXT, "close");
    if (fd <= 2 || !fails("close")) return real(fd);
    int error = errno;
    real(fd);
    errno = error;
    return -1;
}

int rename(const char *from, const char *to) {
    int (*real)(const char *, const char *) = (int (*)(const char *, const char *))dlsym(RTLD_NEXT, "rename");
    return fails("rename") ? -1 : real(from, to);
}

int fcntl(int fd, int command, ...) {
    int (*real)(int, int, ...) = (int (*)(int, int, ...))dlsym(RTLD_NEXT, "fcntl");
    va_list list;
    va_start(list, command);
    void *argument = va_arg(list, void *);
    va_end(list);
    return command == F_SETLK && fails("lock") ? -1 : real(fd, command, argument);
}
