/* Loaded before the C library by LD_PRELOAD: refuses calls of a program, so that a test sees what it answers.
 *
 * REFUSE names the call: growth (of memory), read (of standard input), write (to standard output), told (a write to
 * standard error) or thread (the start of one). REFUSE_NTH is the number of the first call that is refused, counted
 * from 1; REFUSE_LAST that of the last, and without it one call is refused. REFUSE_MET is a file that is made when a
 * call is refused. REFUSE_AS is the number that a refused write answers in place of failing.
 */
#define _GNU_SOURCE
#include <dlfcn.h>
#include <errno.h>
#include <fcntl.h>
#include <limits.h>
#include <pthread.h>
#include <stdatomic.h>
#include <stdlib.h>
#include <string.h>
#include <sys/syscall.h>
#include <unistd.h>

extern void *__libc_malloc(size_t);
extern void *__libc_calloc(size_t, size_t);
extern void *__libc_realloc(void *, size_t);
extern void *__libc_memalign(size_t, size_t);

static const char *refused = "", *met;
static long first, last, takes = -1;
static atomic_long calls;

__attribute__((constructor)) static void begin(void)
{
    const char *named = getenv("REFUSE"), *nth = getenv("REFUSE_NTH"), *until = getenv("REFUSE_LAST"), *as = getenv("REFUSE_AS");
    first = nth ? atol(nth) : LONG_MAX;
    last = until ? atol(until) : first;
    takes = as ? atol(as) : -1;
    met = getenv("REFUSE_MET");
    if (named)
        refused = named;
}

static int is_refused(const char *call)
{
    if (strcmp(refused, call) != 0)
        return 0;
    long number = atomic_fetch_add(&calls, 1) + 1;
    if (number < first || number > last)
        return 0;
    if (met) {
        long file = syscall(SYS_openat, AT_FDCWD, met, O_CREAT | O_WRONLY | O_CLOEXEC, 0600);
        if (file >= 0)
            syscall(SYS_close, file);
    }
    return 1;
}

static void *no_memory(void)
{
    errno = ENOMEM;
    return NULL;
}

void *malloc(size_t size)
{
    return is_refused("growth") ? no_memory() : __libc_malloc(size);
}

void *calloc(size_t count, size_t size)
{
    return is_refused("growth") ? no_memory() : __libc_calloc(count, size);
}

void *realloc(void *block, size_t size)
{
    return is_refused("growth") ? no_memory() : __libc_realloc(block, size);
}

void *memalign(size_t alignment, size_t size)
{
    return is_refused("growth") ? no_memory() : __libc_memalign(alignment, size);
}

void *aligned_alloc(size_t alignment, size_t size)
{
    return memalign(alignment, size);
}

int posix_memalign(void **block, size_t alignment, size_t size)
{
    *block = memalign(alignment, size);
    return *block ? 0 : ENOMEM;
}

ssize_t read(int file, void *bytes, size_t count)
{
    if (file == STDIN_FILENO && is_refused("read")) {
        errno = EIO;
        return -1;
    }
    return syscall(SYS_read, file, bytes, count);
}

ssize_t write(int file, const void *bytes, size_t count)
{
    const char *call = file == STDOUT_FILENO ? "write" : file == STDERR_FILENO ? "told" : "";
    if (*call && is_refused(call)) {
        if (takes >= 0)
            return takes == 0 ? 0 : syscall(SYS_write, file, bytes, count < (size_t)takes ? count : (size_t)takes);
        errno = EIO;
        return -1;
    }
    return syscall(SYS_write, file, bytes, count);
}

ssize_t __write(int file, const void *bytes, size_t count)
{
    return write(file, bytes, count);
}

int pthread_create(pthread_t *thread, const pthread_attr_t *how, void *(*start)(void *), void *given)
{
    static int (*real)(pthread_t *, const pthread_attr_t *, void *(*)(void *), void *);
    if (is_refused("thread"))
        return EAGAIN;
    if (!real)
        *(void **)&real = dlsym(RTLD_NEXT, "pthread_create");
    return real(thread, how, start, given);
}
