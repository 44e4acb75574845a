/* Loaded before the C library: records in their order the calls that open, write, cut and sync files,
   take a connection and send, in the file that POWER names. Each is four numbers, its kind, its
   descriptor, its offset or flags and a length, and so many bytes behind them. A sync isn't passed on:
   what it keeps is worked out from the record, so that nobody waits for a disk. */

#define _GNU_SOURCE
#include <dlfcn.h>
#include <fcntl.h>
#include <stdarg.h>
#include <stdint.h>
#include <stdlib.h>
#include <string.h>
#include <sys/socket.h>
#include <unistd.h>

static int record = -1;

static int really_open(const char *path, int flags, mode_t mode)
{
    int (*next)(const char *, int, ...) = dlsym(RTLD_NEXT, "open");
    return next(path, flags, mode);
}

__attribute__((constructor)) static void open_record(void)
{
    record = really_open(getenv("POWER"), O_WRONLY | O_CREAT | O_APPEND | O_CLOEXEC, 0600);
    if (record < 0)
        _exit(99);
}

static void put(const void *bytes, size_t length)
{
    if (write(record, bytes, length) != (ssize_t)length)
        _exit(99);
}

static void note(char kind, int descriptor, int64_t number, const void *bytes, int64_t length)
{
    int64_t head[4] = {kind, descriptor, number, length};
    put(head, sizeof head);
    if (length > 0)
        put(bytes, length);
}

int open(const char *path, int flags, ...)
{
    va_list more;
    va_start(more, flags);
    mode_t mode = flags & O_CREAT ? va_arg(more, mode_t) : 0;
    va_end(more);
    int opened = really_open(path, flags, mode);
    if (opened >= 0)
        note('o', opened, flags, path, strlen(path));
    return opened;
}

ssize_t pwrite(int file, const void *bytes, size_t length, off_t offset)
{
    ssize_t (*next)(int, const void *, size_t, off_t) = dlsym(RTLD_NEXT, "pwrite");
    ssize_t written = next(file, bytes, length, offset);
    if (written > 0)
        note('w', file, offset, bytes, written);
    return written;
}

int ftruncate(int file, off_t length)
{
    int (*next)(int, off_t) = dlsym(RTLD_NEXT, "ftruncate");
    int status = next(file, length);
    if (status == 0)
        note('c', file, length, NULL, 0);
    return status;
}

int fsync(int file)
{
    note('s', file, 0, NULL, 0);
    return 0;
}

int fdatasync(int file)
{
    note('s', file, 0, NULL, 0);
    return 0;
}

int accept4(int listener, struct sockaddr *address, socklen_t *length, int flags)
{
    int (*next)(int, struct sockaddr *, socklen_t *, int) = dlsym(RTLD_NEXT, "accept4");
    int taken = next(listener, address, length, flags);
    if (taken >= 0)
        note('a', taken, 0, NULL, 0);
    return taken;
}

/* Noted before the client can read it. */
ssize_t send(int socket, const void *bytes, size_t length, int flags)
{
    ssize_t (*next)(int, const void *, size_t, int) = dlsym(RTLD_NEXT, "send");
    note('r', socket, 0, NULL, 0);
    return next(socket, bytes, length, flags);
}
