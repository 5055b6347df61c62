/*
 * Logs what a program asks of the files of one folder, so that clients/powercut can tell what a power cut may leave.
 *
 *     gcc -O2 -Wall -shared -fPIC -o powercut.so powercut.c
 *     LD_PRELOAD=powercut.so POWERCUT_DIR=/real/path POWERCUT_LOG=/path/log PROGRAM ..
 *
 * It needs Linux, and a program that calls the C library for its writes and syncs. A write is logged with its bytes
 * before it is done, and again once it is done; a sync when it begins, and again once it has succeeded. Every record is
 * one write to a file that is opened for appending, so records of several threads and of the client have one order. A
 * call that changes a file in a way that isn't followed here is logged as such: then the log is of no use, and the script
 * says so.
 */
#define _GNU_SOURCE
#include <errno.h>
#include <fcntl.h>
#include <limits.h>
#include <stdint.h>
#include <stdio.h>
#include <stdlib.h>
#include <string.h>
#include <sys/mman.h>
#include <sys/syscall.h>
#include <sys/uio.h>
#include <unistd.h>

enum { WRITE = 1, WRITTEN = 2, SYNC = 3, SYNCED = 4, FAILED = 5, UNKNOWN = 6 };

/* What stands before the bytes of each record; clients/powercut has the same layout. */
struct record {
    char magic[4];
    uint32_t kind;
    uint64_t id, offset, length, result;
    char name[24];
};

static int log_file = -1;
static char folder[PATH_MAX];
static size_t folder_length;
static uint64_t last_id;

/* Opens the log, where the two variables are set. */
__attribute__((constructor)) static void begin(void)
{
    const char *path = getenv("POWERCUT_LOG"), *dir = getenv("POWERCUT_DIR");
    if (!path || !dir)
        return;
    folder_length = strlen(dir);
    if (folder_length + 2 > sizeof folder) {
        fprintf(stderr, "powercut.so: the folder's name is too long\n");
        _exit(90);
    }
    memcpy(folder, dir, folder_length);
    folder[folder_length++] = '/';
    log_file = open(path, O_WRONLY | O_APPEND | O_CREAT | O_CLOEXEC, 0600);
    if (log_file < 0) {
        fprintf(stderr, "powercut.so: %s: %s\n", path, strerror(errno));
        _exit(90);
    }
}

/* Whether this is a file of the folder, and its name there. */
static int is_followed(int file, char name[24])
{
    char link[32], path[PATH_MAX];
    if (log_file < 0 || file < 0)
        return 0;
    int kept = errno;
    snprintf(link, sizeof link, "/proc/self/fd/%d", file);
    ssize_t length = readlink(link, path, sizeof path - 1);
    errno = kept;
    if (length <= (ssize_t)folder_length || memcmp(path, folder, folder_length) != 0)
        return 0;
    path[length] = 0;
    memset(name, 0, 24);
    strncpy(name, path + folder_length, 23);
    return 1;
}

/* Appends one record with its bytes, in one write. Without its log the run would prove nothing, so then it ends. */
static void put(uint32_t kind, uint64_t id, const char name[24], uint64_t offset, const void *bytes, size_t length,
                uint64_t result)
{
    struct record head = {{'P', 'C', 'U', 'T'}, kind, id, offset, length, result, ""};
    memcpy(head.name, name, sizeof head.name);
    struct iovec parts[2] = {{&head, sizeof head}, {(void *)bytes, length}};
    int kept = errno;
    ssize_t done = syscall(SYS_writev, log_file, parts, length ? 2 : 1);
    if (done != (ssize_t)(sizeof head + length)) {
        fprintf(stderr, "powercut.so: the log is cut short: %s\n", strerror(errno));
        _exit(90);
    }
    errno = kept;
}

/* A write at a place, with its two records. */
static ssize_t follow_write(int file, const char name[24], const void *bytes, size_t length, off_t offset, int at_place)
{
    uint64_t id = __atomic_add_fetch(&last_id, 1, __ATOMIC_SEQ_CST);
    int flags = fcntl(file, F_GETFL);
    if (flags & (O_SYNC | O_DSYNC | O_APPEND))
        put(UNKNOWN, id, "O_SYNC or O_APPEND\0....", 0, NULL, 0, 0);
    put(WRITE, id, name, (uint64_t)offset, bytes, length, 0);
    ssize_t done = at_place ? syscall(SYS_pwrite64, file, bytes, length, offset) : syscall(SYS_write, file, bytes, length);
    put(done == (ssize_t)length ? WRITTEN : FAILED, id, name, 0, NULL, 0, (uint64_t)done);
    return done;
}

/* A sync, with its two records. */
static int follow_sync(int file, long call)
{
    char name[24];
    if (!is_followed(file, name))
        return syscall(call, file);
    uint64_t id = __atomic_add_fetch(&last_id, 1, __ATOMIC_SEQ_CST);
    put(SYNC, id, name, 0, NULL, 0, 0);
    int done = syscall(call, file);
    put(done == 0 ? SYNCED : FAILED, id, name, 0, NULL, 0, (uint64_t)done);
    return done;
}

/* Logs that a call isn't followed, where it is about a file of the folder. */
static void tell_unknown(int file, const char *call)
{
    char name[24], told[24] = "";
    if (is_followed(file, name)) {
        strncpy(told, call, sizeof told - 1);
        put(UNKNOWN, 0, told, 0, NULL, 0, 0);
    }
}

/* As the C library's, followed. */
ssize_t write(int file, const void *bytes, size_t length)
{
    char name[24];
    if (!is_followed(file, name))
        return syscall(SYS_write, file, bytes, length);
    return follow_write(file, name, bytes, length, lseek(file, 0, SEEK_CUR), 0);
}

/* As the C library's, followed. */
ssize_t pwrite64(int file, const void *bytes, size_t length, off64_t offset)
{
    char name[24];
    if (!is_followed(file, name))
        return syscall(SYS_pwrite64, file, bytes, length, offset);
    return follow_write(file, name, bytes, length, offset, 1);
}

/* As the C library's, followed. */
ssize_t pwrite(int file, const void *bytes, size_t length, off_t offset)
{
    return pwrite64(file, bytes, length, offset);
}

/* As the C library's, followed. */
int fsync(int file)
{
    return follow_sync(file, SYS_fsync);
}

/* As the C library's, followed. */
int fdatasync(int file)
{
    return follow_sync(file, SYS_fdatasync);
}

/* The calls that are not followed: each is done, and logged where it is about a file of the folder. */
ssize_t writev(int file, const struct iovec *parts, int count)
{
    tell_unknown(file, "writev");
    return syscall(SYS_writev, file, parts, count);
}

/* Not followed. */
ssize_t pwritev64(int file, const struct iovec *parts, int count, off64_t offset)
{
    tell_unknown(file, "pwritev");
    return syscall(SYS_pwritev, file, parts, count, offset, 0);
}

/* Not followed. */
ssize_t pwritev(int file, const struct iovec *parts, int count, off_t offset)
{
    return pwritev64(file, parts, count, offset);
}

/* Not followed. */
ssize_t pwritev64v2(int file, const struct iovec *parts, int count, off64_t offset, int flags)
{
    tell_unknown(file, "pwritev2");
    return syscall(SYS_pwritev2, file, parts, count, offset, 0, flags);
}

/* Not followed. */
ssize_t pwritev2(int file, const struct iovec *parts, int count, off_t offset, int flags)
{
    return pwritev64v2(file, parts, count, offset, flags);
}

/* Not followed. */
int ftruncate64(int file, off64_t length)
{
    tell_unknown(file, "ftruncate");
    return syscall(SYS_ftruncate, file, length);
}

/* Not followed. */
int ftruncate(int file, off_t length)
{
    return ftruncate64(file, length);
}

/* Not followed. */
int fallocate64(int file, int mode, off64_t offset, off64_t length)
{
    tell_unknown(file, "fallocate");
    return syscall(SYS_fallocate, file, mode, offset, length);
}

/* Not followed. */
int fallocate(int file, int mode, off_t offset, off_t length)
{
    return fallocate64(file, mode, offset, length);
}

/* Not followed. */
int sync_file_range(int file, off64_t offset, off64_t length, unsigned flags)
{
    tell_unknown(file, "sync_file_range");
    return syscall(SYS_sync_file_range, file, offset, length, flags);
}

/* Not followed. */
ssize_t copy_file_range(int from, off64_t *at, int to, off64_t *place, size_t length, unsigned flags)
{
    tell_unknown(to, "copy_file_range");
    return syscall(SYS_copy_file_range, from, at, to, place, length, flags);
}

/* Not followed. */
ssize_t sendfile64(int to, int from, off64_t *offset, size_t count)
{
    tell_unknown(to, "sendfile");
    return syscall(SYS_sendfile, to, from, offset, count);
}

/* Not followed. */
ssize_t sendfile(int to, int from, off_t *offset, size_t count)
{
    return sendfile64(to, from, offset, count);
}

/* Not followed, where what is written in memory goes to a file. */
void *mmap64(void *address, size_t length, int protection, int flags, int file, off64_t offset)
{
    if ((flags & MAP_TYPE) != MAP_PRIVATE && (protection & PROT_WRITE))
        tell_unknown(file, "mmap");
    return (void *)syscall(SYS_mmap, address, length, protection, flags, file, offset);
}

/* Not followed, where what is written in memory goes to a file. */
void *mmap(void *address, size_t length, int protection, int flags, int file, off_t offset)
{
    return mmap64(address, length, protection, flags, file, offset);
}
