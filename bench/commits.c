/* The device calls of a store's commits, and nothing else: what they take without the store.

   cc -O2 -o commits bench/commits.c
   ./commits BYTES COMMITS HOME ROOM

   Each commit writes BYTES, syncs, writes a byte over their first one, and syncs. With HOME 1 it then writes the whole blocks of as many
   bytes into a home region of 16 MiB, from where the last one ended. An area has room for ROOM commits; the other one follows
   with three syncs and a byte. It works in a file of this folder that it removes, and prints milliseconds. */
#define _GNU_SOURCE
#include <fcntl.h>
#include <stdio.h>
#include <stdlib.h>
#include <string.h>
#include <time.h>
#include <unistd.h>

#define HOME_SIZE 16777216L

static double now(void)
{
    struct timespec t;
    clock_gettime(CLOCK_MONOTONIC, &t);
    return t.tv_sec + t.tv_nsec * 1e-9;
}

static void put(int fd, const void *bytes, size_t len, off_t at)
{
    if (pwrite(fd, bytes, len, at) != (ssize_t)len) {
        perror("pwrite");
        exit(1);
    }
}

static double sync_it(int fd)
{
    double start = now();
    if (fdatasync(fd)) {
        perror("fdatasync");
        exit(1);
    }
    return now() - start;
}

int main(int count, char **words)
{
    if (count != 5) {
        fprintf(stderr, "commits BYTES COMMITS HOME ROOM\n");
        return 2;
    }
    long len = atol(words[1]), commits = atol(words[2]), room = atol(words[4]);
    int brings_home = atoi(words[3]);
    long area = room * (len + 256), run = len & ~4095L;
    int fd = open("commits.bin", O_RDWR | O_CREAT | O_EXCL, 0644);
    char *bytes = malloc(len), *zeros = calloc(1, HOME_SIZE), one = 1;
    if (fd < 0 || !bytes || !zeros || ftruncate(fd, HOME_SIZE + 2 * area)) {
        perror("commits.bin");
        return 1;
    }
    memset(bytes, 0xa5, len);
    put(fd, zeros, HOME_SIZE, 0);
    sync_it(fd);
    long home = 0, at = 0, in_area = 0, first = HOME_SIZE;
    double start = now(), syncs = 0;
    for (long commit = 0; commit < commits; commit++) {
        if (in_area == room) {
            first = first == HOME_SIZE ? HOME_SIZE + area : HOME_SIZE;
            at = in_area = 0;
            syncs += sync_it(fd);
            put(fd, &one, 1, first);
            syncs += sync_it(fd);
            syncs += sync_it(fd);
        }
        put(fd, bytes, len, first + at);
        syncs += sync_it(fd);
        put(fd, &one, 1, first + at);
        syncs += sync_it(fd);
        at += len;
        in_area++;
        if (brings_home) {
            if (home + run > HOME_SIZE)
                home = 0;
            put(fd, bytes, run, home);
            home += run;
        }
    }
    printf("%ld commits of %ld bytes, %s home: %.0f ms, %.0f of them in syncs\n", commits, len,
           brings_home ? "brought" : "not brought", (now() - start) * 1e3, syncs * 1e3);
    unlink("commits.bin");
    return 0;
}
