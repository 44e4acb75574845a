/* Loaded before the C library: ends the process by SIGKILL at one of its calls that change a file or a folder.
   STOP is the number of that call, from 1 on. The process ends before the call or, where PART is set, behind it;
   of a write only the first half is made then. A sync isn't passed on: the system goes on, so nothing is lost. */

#define _GNU_SOURCE
#include <dlfcn.h>
#include <fcntl.h>
#include <signal.h>
#include <stdarg.h>
#include <stdlib.h>
#include <sys/types.h>
#include <unistd.h>

static long stop, calls;
static int in_part;

__attribute__((constructor)) static void read_stop(void)
{
    stop = atol(getenv("STOP"));
    in_part = getenv("PART") != NULL;
}

static void end(void)
{
    kill(getpid(), SIGKILL);
    pause();
}

/* Whether this call is the last one, and is made. */
static int is_last(void)
{
    if (++calls != stop)
        return 0;
    if (!in_part)
        end();
    return 1;
}

int open(const char *path, int flags, ...)
{
    int (*next)(const char *, int, ...) = dlsym(RTLD_NEXT, "open");
    va_list more;
    va_start(more, flags);
    mode_t mode = flags & O_CREAT ? va_arg(more, mode_t) : 0;
    va_end(more);
    int last = flags & O_CREAT ? is_last() : 0;
    int opened = next(path, flags, mode);
    if (last)
        end();
    return opened;
}

ssize_t pwrite(int file, const void *bytes, size_t length, off_t offset)
{
    ssize_t (*next)(int, const void *, size_t, off_t) = dlsym(RTLD_NEXT, "pwrite");
    int last = is_last();
    ssize_t written = next(file, bytes, last ? length / 2 : length, offset);
    if (last)
        end();
    return written;
}

ssize_t write(int file, const void *bytes, size_t length)
{
    ssize_t (*next)(int, const void *, size_t) = dlsym(RTLD_NEXT, "write");
    int last = file > STDERR_FILENO ? is_last() : 0;
    ssize_t written = next(file, bytes, last ? length / 2 : length);
    if (last)
        end();
    return written;
}

int ftruncate(int file, off_t length)
{
    int (*next)(int, off_t) = dlsym(RTLD_NEXT, "ftruncate");
    int last = is_last();
    int status = next(file, length);
    if (last)
        end();
    return status;
}

int link(const char *from, const char *to)
{
    int (*next)(const char *, const char *) = dlsym(RTLD_NEXT, "link");
    int last = is_last();
    int status = next(from, to);
    if (last)
        end();
    return status;
}

int rename(const char *from, const char *to)
{
    int (*next)(const char *, const char *) = dlsym(RTLD_NEXT, "rename");
    int last = is_last();
    int status = next(from, to);
    if (last)
        end();
    return status;
}

int unlink(const char *path)
{
    int (*next)(const char *) = dlsym(RTLD_NEXT, "unlink");
    int last = is_last();
    int status = next(path);
    if (last)
        end();
    return status;
}

int fchmod(int file, mode_t mode)
{
    int (*next)(int, mode_t) = dlsym(RTLD_NEXT, "fchmod");
    int last = is_last();
    int status = next(file, mode);
    if (last)
        end();
    return status;
}

int fsync(int file)
{
    (void)file;
    return 0;
}

int fdatasync(int file)
{
    (void)file;
    return 0;
}
