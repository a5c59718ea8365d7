/* Faults on purpose, for LD_PRELOAD: the FAULT_AT-th call that asks the system for something of a file fails with the error FAULT_ERROR, or,
   where that is 0, the process is killed in its place, or, where it is -N, waits N milliseconds there; with FAULT_LASTING each later one fails too. The name of the first is appended to the
   file FAULT_HIT. Of writes to one file one after the other the first two count; what is said on standard error is let through. */

#define _GNU_SOURCE
#include <dlfcn.h>
#include <errno.h>
#include <fcntl.h>
#include <signal.h>
#include <stdarg.h>
#include <stdlib.h>
#include <string.h>
#include <sys/stat.h>
#include <sys/syscall.h>
#include <sys/types.h>
#include <sys/uio.h>
#include <unistd.h>

static long calls;

static void told(const char *name)
{
    const char *path = getenv("FAULT_HIT");
    int file = path ? (int)syscall(SYS_open, path, O_WRONLY | O_CREAT | O_APPEND, 0600) : -1;
    if (file >= 0) {
        syscall(SYS_write, file, name, strlen(name));
        syscall(SYS_write, file, "\n", 1);
        syscall(SYS_close, file);
    }
}

/* Whether this call is to fail. */
static int fails(const char *name)
{
    const char *at = getenv("FAULT_AT"), *error = getenv("FAULT_ERROR");
    if (!at || !error)
        return 0;
    long number = atol(at);
    calls++;
    if (calls < number || (calls > number && !getenv("FAULT_LASTING")))
        return 0;
    if (calls == number)
        told(name);
    if (!atoi(error))
        syscall(SYS_kill, getpid(), SIGKILL);
    if (atoi(error) < 0)
        return usleep(-1000 * atoi(error)), 0;
    errno = atoi(error);
    return 1;
}

#define NEXT(name) ((__typeof__(&name))dlsym(RTLD_NEXT, #name))

#define OPEN(name) \
    int name(const char *path, int flags, ...) \
    { \
        va_list rest; \
        va_start(rest, flags); \
        mode_t mode = va_arg(rest, mode_t); \
        va_end(rest); \
        if (strncmp(path, "/proc/", 6) && strncmp(path, "/sys/", 5) && fails("open")) \
            return -1; \
        return NEXT(name)(path, flags, mode); \
    }
OPEN(open)
OPEN(open64)

#define OPENAT(name) \
    int name(int folder, const char *path, int flags, ...) \
    { \
        va_list rest; \
        va_start(rest, flags); \
        mode_t mode = va_arg(rest, mode_t); \
        va_end(rest); \
        if (fails("open")) \
            return -1; \
        return NEXT(name)(folder, path, flags, mode); \
    }
OPENAT(openat)
OPENAT(openat64)

ssize_t write(int file, const void *bytes, size_t length)
{
    static int last = -1, times;
    times = file == last ? times + 1 : 1;
    last = file;
    if (file != 2 && times <= 2 && fails("write"))
        return -1;
    return NEXT(write)(file, bytes, length);
}

int rename(const char *old, const char *new)
{
    return fails("rename") ? -1 : NEXT(rename)(old, new);
}

int fsync(int file)
{
    return fails("fsync") ? -1 : NEXT(fsync)(file);
}

int flock(int file, int how)
{
    return fails("lock") ? -1 : NEXT(flock)(file, how);
}

int link(const char *old, const char *new)
{
    return fails("link") ? -1 : NEXT(link)(old, new);
}

int linkat(int from, const char *old, int to, const char *new, int flags)
{
    return fails("link") ? -1 : NEXT(linkat)(from, old, to, new, flags);
}

int unlink(const char *path)
{
    return fails("unlink") ? -1 : NEXT(unlink)(path);
}

int unlinkat(int folder, const char *path, int flags)
{
    return fails("unlink") ? -1 : NEXT(unlinkat)(folder, path, flags);
}

int mkdir(const char *path, mode_t mode)
{
    return fails("mkdir") ? -1 : NEXT(mkdir)(path, mode);
}
