/* Loaded before the C library by LD_PRELOAD: lets calls on files fail, so that a test sees what a program makes of it.
 *
 * FAIL names the call: write, sync, rename (a link that puts a file in its place counts too) or unlink. FAIL_NTH is the
 * number of the first call that fails, counted from 1; FAIL_LAST that of the last, and without it one fails. FAIL_MET is
 * a file that is made when one fails. With FAIL_KILLS the process is killed there. Only calls on ordinary files count,
 * and none on the standard streams.
 */
#define _GNU_SOURCE
#include <dlfcn.h>
#include <errno.h>
#include <fcntl.h>
#include <signal.h>
#include <stdlib.h>
#include <string.h>
#include <sys/stat.h>
#include <sys/syscall.h>
#include <sys/types.h>
#include <unistd.h>

static int fails(const char *call)
{
    static long calls;
    const char *named = getenv("FAIL"), *nth = getenv("FAIL_NTH"), *until = getenv("FAIL_LAST"), *met = getenv("FAIL_MET");
    if (!named || !nth || strcmp(named, call) != 0)
        return 0;
    long number = ++calls;
    if (number < atol(nth) || number > (until ? atol(until) : atol(nth)))
        return 0;
    if (met) {
        long file = syscall(SYS_openat, AT_FDCWD, met, O_CREAT | O_WRONLY | O_CLOEXEC, 0600);
        if (file >= 0)
            syscall(SYS_close, file);
    }
    if (getenv("FAIL_KILLS"))
        kill(getpid(), SIGKILL);
    return 1;
}

static int is_file(int descriptor)
{
    struct stat found;
    return descriptor > 2 && fstat(descriptor, &found) == 0 && S_ISREG(found.st_mode);
}

#define NEXT(type, name) ((type)dlsym(RTLD_NEXT, name))

ssize_t write(int descriptor, const void *bytes, size_t count)
{
    if (is_file(descriptor) && fails("write"))
        return errno = ENOSPC, -1;
    return NEXT(ssize_t (*)(int, const void *, size_t), "write")(descriptor, bytes, count);
}

ssize_t pwrite(int descriptor, const void *bytes, size_t count, off_t at)
{
    if (is_file(descriptor) && fails("write"))
        return errno = ENOSPC, -1;
    return NEXT(ssize_t (*)(int, const void *, size_t, off_t), "pwrite")(descriptor, bytes, count, at);
}

ssize_t pwrite64(int descriptor, const void *bytes, size_t count, off64_t at)
{
    if (is_file(descriptor) && fails("write"))
        return errno = ENOSPC, -1;
    return NEXT(ssize_t (*)(int, const void *, size_t, off64_t), "pwrite64")(descriptor, bytes, count, at);
}

int fsync(int descriptor)
{
    if (descriptor > 2 && fails("sync"))
        return errno = EIO, -1;
    return NEXT(int (*)(int), "fsync")(descriptor);
}

int fdatasync(int descriptor)
{
    if (descriptor > 2 && fails("sync"))
        return errno = EIO, -1;
    return NEXT(int (*)(int), "fdatasync")(descriptor);
}

int rename(const char *from, const char *to)
{
    if (fails("rename"))
        return errno = EACCES, -1;
    return NEXT(int (*)(const char *, const char *), "rename")(from, to);
}

int renameat(int from_folder, const char *from, int to_folder, const char *to)
{
    if (fails("rename"))
        return errno = EACCES, -1;
    return NEXT(int (*)(int, const char *, int, const char *), "renameat")(from_folder, from, to_folder, to);
}

int unlink(const char *path)
{
    if (fails("unlink"))
        return errno = EACCES, -1;
    return NEXT(int (*)(const char *), "unlink")(path);
}
