/* Put before the C library's own by LD_PRELOAD: a standard input and output that are interrupted, short, or fail late. The
 * environment's INPUT_OUTPUT says how. */
#define _GNU_SOURCE
#include <dlfcn.h>
#include <errno.h>
#include <stdlib.h>
#include <string.h>
#include <unistd.h>

static int is(const char *how) {
    const char *said = getenv("INPUT_OUTPUT");
    return said != NULL && strcmp(said, how) == 0;
}

static ssize_t fails(int error) {
    errno = error;
    return -1;
}

ssize_t read(int file, void *into, size_t length) {
    static int calls;
    ssize_t (*real)(int, void *, size_t);
    *(void **)&real = dlsym(RTLD_NEXT, "read");
    calls += file == STDIN_FILENO;
    if (file == STDIN_FILENO && is("interrupted") && calls % 2 == 0) return fails(EINTR);
    if (file == STDIN_FILENO && is("failing") && calls > 1) return fails(EIO);
    int few = file == STDIN_FILENO && (is("short") || is("interrupted") || is("failing")) && length > 1000;
    return real(file, into, few ? 1000 : length);
}

ssize_t write(int file, const void *from, size_t length) {
    static int calls;
    ssize_t (*real)(int, const void *, size_t);
    *(void **)&real = dlsym(RTLD_NEXT, "write");
    calls += file == STDOUT_FILENO;
    if (file == STDOUT_FILENO && is("interrupted") && calls % 2 == 1) return fails(EINTR);
    int few = file == STDOUT_FILENO && (is("short") || is("interrupted")) && length > 7;
    return real(file, from, few ? 7 : length);
}

int close(int file) {
    int (*real)(int);
    *(void **)&real = dlsym(RTLD_NEXT, "close");
    int status = real(file);
    return file == STDOUT_FILENO && is("full at the close") ? (int)fails(ENOSPC) : status;
}
