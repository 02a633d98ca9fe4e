/* Preloaded into a program: refuses its allocations that `REFUSE` names, and makes the file `REFUSE_MARK` at the first one
 * that it refuses. `REFUSE` is a number N, and only the Nth is refused; or N and a plus sign, and all from the Nth on are.
 *
 * What is counted: blocks of the C library's heap, also those that the library takes for itself, mappings, threads and
 * programs that are started, each of which needs memory for its stack. Programs that are started have no preloaded library. */
#define _GNU_SOURCE
#include <dlfcn.h>
#include <errno.h>
#include <fcntl.h>
#include <pthread.h>
#include <spawn.h>
#include <stdatomic.h>
#include <stdbool.h>
#include <stdint.h>
#include <stdlib.h>
#include <string.h>
#include <sys/mman.h>
#include <sys/syscall.h>
#include <unistd.h>

void *__libc_malloc(size_t size);
void *__libc_calloc(size_t count, size_t size);
void *__libc_realloc(void *block, size_t size);
void *__libc_memalign(size_t alignment, size_t size);

static unsigned long at;
static bool all_behind;
static char mark[4096];
static atomic_ulong count;
static atomic_flag is_marked = ATOMIC_FLAG_INIT;

__attribute__((constructor)) static void begin(void) {
    const char *refuse = getenv("REFUSE");
    const char *name = getenv("REFUSE_MARK");
    if (refuse == NULL || name == NULL || strlen(name) >= sizeof mark) {
        return;
    }
    char *end;
    unsigned long number = strtoul(refuse, &end, 10);
    all_behind = *end == '+';
    strcpy(mark, name);
    unsetenv("LD_PRELOAD");
    unsetenv("REFUSE");
    unsetenv("REFUSE_MARK");
    at = number;
}

static bool is_refused(void) {
    if (at == 0) {
        return false;
    }
    unsigned long number = atomic_fetch_add(&count, 1) + 1;
    if (all_behind ? number < at : number != at) {
        return false;
    }
    if (!atomic_flag_test_and_set(&is_marked)) {
        close(open(mark, O_CREAT | O_WRONLY | O_CLOEXEC, 0600));
    }
    errno = ENOMEM;
    return true;
}

void *malloc(size_t size) {
    return is_refused() ? NULL : __libc_malloc(size);
}

void *calloc(size_t number, size_t size) {
    return is_refused() ? NULL : __libc_calloc(number, size);
}

void *realloc(void *block, size_t size) {
    return is_refused() ? NULL : __libc_realloc(block, size);
}

void *memalign(size_t alignment, size_t size) {
    return is_refused() ? NULL : __libc_memalign(alignment, size);
}

void *aligned_alloc(size_t alignment, size_t size) {
    return memalign(alignment, size);
}

int posix_memalign(void **block, size_t alignment, size_t size) {
    void *made = memalign(alignment, size);
    if (made == NULL) {
        return ENOMEM;
    }
    *block = made;
    return 0;
}

void *mmap(void *place, size_t size, int protection, int flags, int file, off_t offset) {
    return is_refused() ? MAP_FAILED : (void *)syscall(SYS_mmap, place, size, protection, flags, file, offset);
}

int pthread_create(pthread_t *thread, const pthread_attr_t *how, void *(*work)(void *), void *given) {
    if (is_refused()) {
        return EAGAIN;
    }
    int (*next)(pthread_t *, const pthread_attr_t *, void *(*)(void *), void *) = dlsym(RTLD_NEXT, "pthread_create");
    return next(thread, how, work, given);
}

int posix_spawn(pid_t *process, const char *path, const posix_spawn_file_actions_t *actions, const posix_spawnattr_t *how,
                char *const words[], char *const environment[]) {
    if (is_refused()) {
        return ENOMEM;
    }
    int (*next)(pid_t *, const char *, const posix_spawn_file_actions_t *, const posix_spawnattr_t *, char *const[], char *const[]) =
        dlsym(RTLD_NEXT, "posix_spawn");
    return next(process, path, actions, how, words, environment);
}
