/* Loaded before the C library: a sync takes three milliseconds longer, so that on every disk a program is
   found between its change and its answer. */

#define _GNU_SOURCE
#include <dlfcn.h>
#include <unistd.h>

static int slowly(const char *name, int file)
{
    int (*next)(int) = dlsym(RTLD_NEXT, name);
    usleep(3000);
    return next(file);
}

int fsync(int file)
{
    return slowly("fsync", file);
}

int fdatasync(int file)
{
    return slowly("fdatasync", file);
}
