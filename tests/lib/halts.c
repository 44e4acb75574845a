/* Loaded before the C library: halts the process by SIGSTOP before one of its calls that look at a file, lock it, or change
   it or a folder. HALT is the number of that call, from 1 on. A sync isn't passed on: the system goes on, so nothing is
   lost. */

#define _GNU_SOURCE
#include <dlfcn.h>
#include <fcntl.h>
#include <signal.h>
#include <stdarg.h>
#include <stdlib.h>
#include <sys/file.h>
#include <sys/stat.h>
#include <sys/types.h>
#include <unistd.h>

static long halt, calls;

__attribute__((constructor)) static void read_halt(void)
{
    halt = atol(getenv("HALT"));
}

static void count(void)
{
    if (++calls == halt)
        kill(getpid(), SIGSTOP);
}

int open(const char *path, int flags, ...)
{
    int (*next)(const char *, int, ...) = dlsym(RTLD_NEXT, "open");
    va_list more;
    va_start(more, flags);
    mode_t mode = flags & O_CREAT ? va_arg(more, mode_t) : 0;
    va_end(more);
    count();
    return next(path, flags, mode);
}

int statx(int folder, const char *path, int flags, unsigned int mask, struct statx *found)
{
    int (*next)(int, const char *, int, unsigned int, struct statx *) = dlsym(RTLD_NEXT, "statx");
    count();
    return next(folder, path, flags, mask, found);
}

int fcntl(int file, int command, ...)
{
    int (*next)(int, int, ...) = dlsym(RTLD_NEXT, "fcntl");
    va_list more;
    va_start(more, command);
    void *given = va_arg(more, void *);
    va_end(more);
    count();
    return next(file, command, given);
}

int flock(int file, int operation)
{
    int (*next)(int, int) = dlsym(RTLD_NEXT, "flock");
    count();
    return next(file, operation);
}

ssize_t pwrite(int file, const void *bytes, size_t length, off_t offset)
{
    ssize_t (*next)(int, const void *, size_t, off_t) = dlsym(RTLD_NEXT, "pwrite");
    count();
    return next(file, bytes, length, offset);
}

ssize_t write(int file, const void *bytes, size_t length)
{
    ssize_t (*next)(int, const void *, size_t) = dlsym(RTLD_NEXT, "write");
    if (file > STDERR_FILENO)
        count();
    return next(file, bytes, length);
}

int ftruncate(int file, off_t length)
{
    int (*next)(int, off_t) = dlsym(RTLD_NEXT, "ftruncate");
    count();
    return next(file, length);
}

int link(const char *from, const char *to)
{
    int (*next)(const char *, const char *) = dlsym(RTLD_NEXT, "link");
    count();
    return next(from, to);
}

int rename(const char *from, const char *to)
{
    int (*next)(const char *, const char *) = dlsym(RTLD_NEXT, "rename");
    count();
    return next(from, to);
}

int unlink(const char *path)
{
    int (*next)(const char *) = dlsym(RTLD_NEXT, "unlink");
    count();
    return next(path);
}

int fchown(int file, uid_t user, gid_t group)
{
    int (*next)(int, uid_t, gid_t) = dlsym(RTLD_NEXT, "fchown");
    count();
    return next(file, user, group);
}

int fchmod(int file, mode_t mode)
{
    int (*next)(int, mode_t) = dlsym(RTLD_NEXT, "fchmod");
    count();
    return next(file, mode);
}

int fsync(int file)
{
    (void)file;
    return 0;
}

int fdatasync(int file)
{
    (void)file;
    return 0;
}
