/* In front of `fdatasync`: a disk whose sync takes a millisecond more. examples/kept builds it. */
#define _GNU_SOURCE
#include <dlfcn.h>
#include <time.h>

int fdatasync(int file)
{
    static int (*real)(int);
    struct timespec rest = {0, 1000000};
    if (!real)
        real = (int (*)(int))dlsym(RTLD_NEXT, "fdatasync");
    nanosleep(&rest, NULL);
    return real(file);
}
