/* Loaded before the C library: one write, cut or sync of a file fails, as on a disk that is full or broken. The file that
   FAIL names is `struct control`. Calls are counted from the moment when a connection is taken. */

#define _GNU_SOURCE
#include <dlfcn.h>
#include <errno.h>
#include <fcntl.h>
#include <stdint.h>
#include <stdlib.h>
#include <sys/mman.h>
#include <sys/socket.h>
#include <sys/types.h>
#include <unistd.h>

struct control {
    /* The call that fails, or 0. */
    int64_t failing;
    /* How many there were. */
    int64_t calls;
    /* The error that it fails with. */
    int64_t error;
};

static volatile struct control *control;

__attribute__((constructor)) static void map_control(void)
{
    int file = open(getenv("FAIL"), O_RDWR);
    void *page = mmap(NULL, sizeof(struct control), PROT_READ | PROT_WRITE, MAP_SHARED, file, 0);
    if (page == MAP_FAILED)
        _exit(99);
    close(file);
    control = page;
}

static int fails(void)
{
    if (control == NULL || ++control->calls != control->failing)
        return 0;
    errno = (int)control->error;
    return 1;
}

int accept4(int listener, struct sockaddr *address, socklen_t *length, int flags)
{
    int (*next)(int, struct sockaddr *, socklen_t *, int) = dlsym(RTLD_NEXT, "accept4");
    int taken = next(listener, address, length, flags);
    if (taken >= 0)
        control->calls = 0;
    return taken;
}

ssize_t pwrite(int file, const void *bytes, size_t length, off_t offset)
{
    ssize_t (*next)(int, const void *, size_t, off_t) = dlsym(RTLD_NEXT, "pwrite");
    return fails() ? -1 : next(file, bytes, length, offset);
}

int ftruncate(int file, off_t length)
{
    int (*next)(int, off_t) = dlsym(RTLD_NEXT, "ftruncate");
    return fails() ? -1 : next(file, length);
}

int fsync(int file)
{
    int (*next)(int) = dlsym(RTLD_NEXT, "fsync");
    return fails() ? -1 : next(file);
}

int fdatasync(int file)
{
    int (*next)(int) = dlsym(RTLD_NEXT, "fdatasync");
    return fails() ? -1 : next(file);
}
