/* Loaded before the C library: refuses one growth of memory. The file that REFUSE names is `struct control`.
   Growths are counted from the moment when a connection is taken, or where the file says so from the start.
   A sync isn't passed on, since no trial has to do with the disk. */

#define _GNU_SOURCE
#include <dlfcn.h>
#include <errno.h>
#include <fcntl.h>
#include <stdint.h>
#include <stdlib.h>
#include <sys/mman.h>
#include <sys/socket.h>
#include <unistd.h>

struct control {
    /* The growth that is refused, or 0. */
    int64_t refused;
    /* How many there were. */
    int64_t growths;
    /* How many there were when the connection's first reply was sent. */
    int64_t answered;
    /* Whether they are counted from the start. */
    int64_t from_start;
};

static volatile struct control *control;

/* The growth that is refused of those that are being counted. */
static int64_t refused;

extern void *__libc_malloc(size_t size);
extern void *__libc_realloc(void *block, size_t size);

__attribute__((constructor)) static void map_control(void)
{
    int file = open(getenv("REFUSE"), O_RDWR);
    void *page = mmap(NULL, sizeof(struct control), PROT_READ | PROT_WRITE, MAP_SHARED, file, 0);
    if (page == MAP_FAILED)
        _exit(99);
    close(file);
    control = page;
    if (control->from_start)
        refused = control->refused;
}

static int is_refused(void)
{
    if (control == NULL || ++control->growths != refused)
        return 0;
    errno = ENOMEM;
    return 1;
}

void *malloc(size_t size)
{
    return is_refused() ? NULL : __libc_malloc(size);
}

void *realloc(void *block, size_t size)
{
    return is_refused() ? NULL : __libc_realloc(block, size);
}

int accept4(int listener, struct sockaddr *address, socklen_t *length, int flags)
{
    int (*next)(int, struct sockaddr *, socklen_t *, int) = dlsym(RTLD_NEXT, "accept4");
    int taken = next(listener, address, length, flags);
    if (taken < 0)
        return taken;
    refused = control->refused;
    control->growths = 0;
    control->answered = -1;
    return taken;
}

ssize_t send(int socket, const void *bytes, size_t length, int flags)
{
    ssize_t (*next)(int, const void *, size_t, int) = dlsym(RTLD_NEXT, "send");
    if (control->answered < 0)
        control->answered = control->growths;
    return next(socket, bytes, length, flags);
}

int fsync(int file)
{
    (void)file;
    return 0;
}

int fdatasync(int file)
{
    (void)file;
    return 0;
}
