/* Preloaded into a program: each write of more than one byte takes half of its bytes, and the first such one makes the file
 * `SHORT_MARK`. Programs that are started have no preloaded library. */
#define _GNU_SOURCE
#include <dlfcn.h>
#include <fcntl.h>
#include <stdlib.h>
#include <string.h>
#include <sys/socket.h>
#include <sys/types.h>
#include <unistd.h>

static char mark[4096];

__attribute__((constructor)) static void begin(void) {
    const char *name = getenv("SHORT_MARK");
    if (name != NULL && strlen(name) < sizeof mark) {
        strcpy(mark, name);
    }
    unsetenv("LD_PRELOAD");
    unsetenv("SHORT_MARK");
}

static size_t half_of(size_t size) {
    if (size < 2) {
        return size;
    }
    if (mark[0] != 0) {
        int file = open(mark, O_CREAT | O_WRONLY | O_CLOEXEC, 0600);
        if (file >= 0) {
            close(file);
        }
        mark[0] = 0;
    }
    return size / 2;
}

ssize_t write(int file, const void *bytes, size_t size) {
    ssize_t (*next)(int, const void *, size_t) = dlsym(RTLD_NEXT, "write");
    return next(file, bytes, half_of(size));
}

ssize_t pwrite(int file, const void *bytes, size_t size, off_t place) {
    ssize_t (*next)(int, const void *, size_t, off_t) = dlsym(RTLD_NEXT, "pwrite");
    return next(file, bytes, half_of(size), place);
}

ssize_t pwrite64(int file, const void *bytes, size_t size, off64_t place) {
    ssize_t (*next)(int, const void *, size_t, off64_t) = dlsym(RTLD_NEXT, "pwrite64");
    return next(file, bytes, half_of(size), place);
}

ssize_t send(int link, const void *bytes, size_t size, int flags) {
    ssize_t (*next)(int, const void *, size_t, int) = dlsym(RTLD_NEXT, "send");
    return next(link, bytes, half_of(size), flags);
}
