/*
 * Has the disks of a folder fail: while a file fail.N is in the folder FAILING_DIR, each write and sync of a file slotN.disk is refused
 * with EIO. For clients/chain.
 *
 *     gcc -O2 -Wall -shared -fPIC -o failing.so failing.c
 *     LD_PRELOAD=failing.so FAILING_DIR=/path PROGRAM ..
 *
 * It needs Linux, and a program that calls the C library for its writes and syncs.
 */
#define _GNU_SOURCE
#include <dlfcn.h>
#include <errno.h>
#include <limits.h>
#include <stdio.h>
#include <stdlib.h>
#include <string.h>
#include <sys/types.h>
#include <unistd.h>

/* Whether calls on this file fail now. */
static int fails(int file)
{
    char link[32], path[PATH_MAX], flag[PATH_MAX];
    const char *dir = getenv("FAILING_DIR");
    int kept = errno, found = 0;
    snprintf(link, sizeof link, "/proc/self/fd/%d", file);
    ssize_t length = dir ? readlink(link, path, sizeof path - 1) : -1;
    if (length > 10) {
        path[length] = 0;
        const char *name = path + length - 10;
        if (memcmp(name, "slot", 4) == 0 && strcmp(name + 5, ".disk") == 0) {
            snprintf(flag, sizeof flag, "%s/fail.%c", dir, name[4]);
            found = access(flag, F_OK) == 0;
        }
    }
    errno = found ? EIO : kept;
    return found;
}

ssize_t pwrite(int file, const void *bytes, size_t count, off_t at)
{
    static ssize_t (*real)(int, const void *, size_t, off_t);
    if (!real)
        real = (ssize_t (*)(int, const void *, size_t, off_t))dlsym(RTLD_NEXT, "pwrite");
    return fails(file) ? -1 : real(file, bytes, count, at);
}

ssize_t pwrite64(int file, const void *bytes, size_t count, off_t at)
{
    return pwrite(file, bytes, count, at);
}

int fdatasync(int file)
{
    static int (*real)(int);
    if (!real)
        real = (int (*)(int))dlsym(RTLD_NEXT, "fdatasync");
    return fails(file) ? -1 : real(file);
}

int fsync(int file)
{
    static int (*real)(int);
    if (!real)
        real = (int (*)(int))dlsym(RTLD_NEXT, "fsync");
    return fails(file) ? -1 : real(file);
}
