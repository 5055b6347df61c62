/*
 * A load of one kind of request against an NBD server, and the time that it takes. For bench/run.
 *
 *     gcc -O2 -Wall -pthread -o load load.c
 *     load PORT KIND ORDER SIZE DEPTH CLIENTS SECONDS
 *         KIND: read, write, fua, flush (a write and a FLUSH behind it count as one); ORDER: random, sequential
 *     load sync FILE SIZE SECONDS  the rate of a write of SIZE and fdatasync, in a file that is made and removed
 *
 * It needs Linux. Each client is a session in a thread of its own, with DEPTH requests in flight. All replies that one
 * recv gives are taken, and as many requests then go out in one sendmsg: so it costs little beside the server. The data
 * of a READ is thrown away. It prints one line: requests, seconds, the median, 99th-percentile and longest latency in
 * microseconds, and the processor seconds of its own. It ends with status 1 and a line where a reply is an error.
 */
#define _GNU_SOURCE
#include <arpa/inet.h>
#include <endian.h>
#include <errno.h>
#include <fcntl.h>
#include <netinet/tcp.h>
#include <pthread.h>
#include <stdint.h>
#include <stdio.h>
#include <stdlib.h>
#include <string.h>
#include <sys/resource.h>
#include <sys/socket.h>
#include <sys/uio.h>
#include <time.h>
#include <unistd.h>

enum { READ = 0, WRITE = 1, DISC = 2, FLUSH = 3, FUA = 1, MOST_DEPTH = 256, BUCKETS = 64 * 16 };

struct request {
    uint32_t magic;
    uint16_t flags, kind;
    uint64_t cookie, offset;
    uint32_t length;
} __attribute__((packed));

struct reply {
    uint32_t magic, error;
    uint64_t cookie;
} __attribute__((packed));

/* What all clients are to do. */
static int port, kind, flags, is_sequential, depth, clients;
static uint32_t size;
static double seconds;
static pthread_barrier_t ready;

/* A session, and what it has measured. */
struct client {
    int number, socket;
    uint64_t volume, next, random, done;
    uint64_t begun[MOST_DEPTH];
    uint64_t buckets[BUCKETS], longest;
    char *data;
};

/* Ends the program with what is wrong. */
static void fail(const char *what)
{
    fprintf(stderr, "load: %s: %s\n", what, strerror(errno));
    exit(1);
}

/* Nanoseconds of a clock that only goes forward. */
static uint64_t now(void)
{
    struct timespec time;
    clock_gettime(CLOCK_MONOTONIC, &time);
    return (uint64_t)time.tv_sec * 1000000000u + (uint64_t)time.tv_nsec;
}

/* Sends all of these parts. */
static void send_all(struct client *one, struct iovec *parts, int count)
{
    while (count > 0) {
        struct msghdr message = {.msg_iov = parts, .msg_iovlen = (size_t)count};
        ssize_t done = sendmsg(one->socket, &message, MSG_NOSIGNAL);
        if (done < 0)
            fail("sending");
        while (count > 0 && (size_t)done >= parts->iov_len) {
            done -= (ssize_t)parts->iov_len;
            parts++;
            count--;
        }
        if (count > 0) {
            parts->iov_base = (char *)parts->iov_base + done;
            parts->iov_len -= (size_t)done;
        }
    }
}

/* Receives as many bytes. */
static void take(struct client *one, void *bytes, size_t length)
{
    for (size_t at = 0; at < length;) {
        ssize_t done = recv(one->socket, (char *)bytes + at, length - at, 0);
        if (done <= 0)
            fail("the server hung up");
        at += (size_t)done;
    }
}

/* Opens the session and learns the size of the volume. */
static void negotiate(struct client *one)
{
    struct sockaddr_in place = {.sin_family = AF_INET, .sin_port = htons((uint16_t)port)};
    place.sin_addr.s_addr = htonl(INADDR_LOOPBACK);
    one->socket = socket(AF_INET, SOCK_STREAM, 0);
    if (one->socket < 0 || connect(one->socket, (struct sockaddr *)&place, sizeof place) != 0)
        fail("connecting");
    int on = 1;
    setsockopt(one->socket, IPPROTO_TCP, TCP_NODELAY, &on, sizeof on);
    char greeting[18];
    take(one, greeting, sizeof greeting);
    struct {
        uint32_t flags;
        char magic[8];
        uint32_t option, length, name;
        uint16_t count;
    } __attribute__((packed)) go = {htonl(3), "", htonl(7), htonl(6), 0, 0};
    memcpy(go.magic, "IHAVEOPT", 8);
    struct iovec part = {&go, sizeof go};
    send_all(one, &part, 1);
    for (;;) {
        struct {
            uint64_t magic;
            uint32_t option, kind, length;
        } __attribute__((packed)) head;
        char body[4096];
        take(one, &head, sizeof head);
        uint32_t length = ntohl(head.length);
        if (length > sizeof body || (ntohl(head.kind) != 1 && ntohl(head.kind) != 3))
            fail("negotiating");
        take(one, body, length);
        if (ntohl(head.kind) == 1)
            break;
        if (length == 12 && body[0] == 0 && body[1] == 0) {
            uint64_t volume;
            memcpy(&volume, body + 2, 8);
            one->volume = be64toh(volume);
        }
    }
    if (one->volume < size)
        fail("the volume is too small");
}

/* The place of the next request: random, or on from the last in this client's share of the volume. */
static uint64_t next_place(struct client *one)
{
    uint64_t places = one->volume / size;
    if (is_sequential) {
        uint64_t share = places / (uint64_t)clients;
        return (share * (uint64_t)one->number + one->next++ % share) * size;
    }
    one->random ^= one->random << 13;
    one->random ^= one->random >> 7;
    one->random ^= one->random << 17;
    return one->random % places * size;
}

/* Puts a request into the parts that go out. */
static int put(struct client *one, struct request *request, struct iovec *parts, uint64_t cookie, int code, uint64_t time)
{
    one->begun[cookie] = time;
    request->magic = htonl(0x25609513);
    request->flags = htons((uint16_t)(code == WRITE ? flags : 0));
    request->kind = htons((uint16_t)code);
    request->cookie = cookie;
    request->offset = code == FLUSH ? 0 : htobe64(next_place(one));
    request->length = code == FLUSH ? 0 : htonl(size);
    parts[0] = (struct iovec){request, sizeof *request};
    if (code != WRITE)
        return 1;
    parts[1] = (struct iovec){one->data, size};
    return 2;
}

/* Counts a latency: sixteen buckets for each doubling. */
static void count(struct client *one, uint64_t took)
{
    int power = 63 - __builtin_clzll(took | 16);
    uint64_t part = power >= 4 ? (took >> (power - 4)) & 15 : 0;
    one->buckets[power * 16 + (int)part]++;
    if (took > one->longest)
        one->longest = took;
}

/* One client, until the time is over and all replies are there. */
static void *play(void *argument)
{
    struct client *one = argument;
    struct request *requests = calloc(MOST_DEPTH, sizeof *requests);
    struct iovec *parts = calloc(2 * MOST_DEPTH, sizeof *parts);
    size_t room = 1 << 20, have = 0;
    char *came = malloc(room);
    one->data = malloc(size);
    if (!requests || !parts || !came || !one->data)
        fail("memory");
    one->random = 88172645463325252u + (uint64_t)one->number * 7919u;
    for (uint32_t at = 0; at < size; at++)
        one->data[at] = (char)(at * 2654435761u >> 13);
    negotiate(one);
    pthread_barrier_wait(&ready);
    int code = kind == FLUSH ? WRITE : kind, in_flight = depth, waiting = 0;
    uint64_t from = now(), until = from + (uint64_t)(seconds * 1e9);
    for (int cookie = 0; cookie < depth; cookie++)
        waiting += put(one, &requests[cookie], parts + waiting, (uint64_t)cookie, code, from);
    send_all(one, parts, waiting);
    // The reply whose data is still to come, and how much of it.
    struct reply reply = {0, 0, 0};
    size_t missing = 0;
    int is_open = 0;
    while (in_flight > 0) {
        ssize_t got = recv(one->socket, came + have, room - have, 0);
        if (got <= 0)
            fail("the server hung up");
        have += (size_t)got;
        size_t at = 0;
        uint64_t time = now();
        waiting = 0;
        for (;;) {
            if (!is_open) {
                if (have - at < sizeof reply)
                    break;
                memcpy(&reply, came + at, sizeof reply);
                at += sizeof reply;
                if (reply.magic != htonl(0x67446698) || reply.error != 0 || reply.cookie >= (uint64_t)depth) {
                    fprintf(stderr, "load: a reply with error %u\n", ntohl(reply.error));
                    exit(1);
                }
                is_open = 1;
                missing = kind == READ ? size : 0;
            }
            size_t passed = missing < have - at ? missing : have - at;
            at += passed;
            missing -= passed;
            if (missing > 0)
                break;
            is_open = 0;
            uint64_t cookie = reply.cookie;
            if (kind == FLUSH && requests[cookie].kind == htons(WRITE)) {
                waiting += put(one, &requests[cookie], parts + waiting, cookie, FLUSH, one->begun[cookie]);
            } else if (time < until) {
                count(one, time - one->begun[cookie]);
                one->done++;
                waiting += put(one, &requests[cookie], parts + waiting, cookie, code, time);
            } else {
                in_flight--;
            }
        }
        memmove(came, came + at, have - at);
        have -= at;
        if (waiting > 0)
            send_all(one, parts, waiting);
    }
    struct request end = {.magic = htonl(0x25609513), .kind = htons(DISC)};
    struct iovec part = {&end, sizeof end};
    send_all(one, &part, 1);
    close(one->socket);
    return NULL;
}

/* The latency below which this share of all requests stayed, in microseconds. */
static double percentile(const struct client *all, double share)
{
    uint64_t total = 0, seen = 0;
    for (int n = 0; n < clients; n++)
        total += all[n].done;
    for (int bucket = 0; bucket < BUCKETS; bucket++) {
        for (int n = 0; n < clients; n++)
            seen += all[n].buckets[bucket];
        if ((double)seen >= share * (double)total)
            return (double)((uint64_t)(16 + bucket % 16) << (bucket / 16 - 4)) / 1e3;
    }
    return 0;
}

/* Writes 4 KiB and syncs them, for so many seconds. */
static int measure_sync(const char *path, size_t size, double length)
{
    char *block = malloc(size);
    if (block == NULL)
        fail("finding memory");
    memset(block, 0x5a, size);
    int file = open(path, O_RDWR | O_CREAT | O_TRUNC, 0600);
    if (file < 0)
        fail(path);
    for (int n = 0; n < 256; n++)
        if (pwrite(file, block, size, (off_t)n * (off_t)size) != (ssize_t)size)
            fail("writing");
    if (fsync(file) != 0)
        fail("syncing");
    uint64_t from = now(), until = from + (uint64_t)(length * 1e9), done = 0, time;
    while ((time = now()) < until) {
        if (pwrite(file, block, size, (off_t)(done % 256) * (off_t)size) != (ssize_t)size || fdatasync(file) != 0)
            fail("syncing");
        done++;
    }
    close(file);
    unlink(path);
    printf("%llu %.3f\n", (unsigned long long)done, (double)(time - from) / 1e9);
    return 0;
}

/* Reads the words of the command line, plays all clients and prints what they took. */
int main(int count_of_words, char **words)
{
    if (count_of_words == 5 && strcmp(words[1], "sync") == 0)
        return measure_sync(words[2], (size_t)atoi(words[3]), atof(words[4]));
    if (count_of_words != 8) {
        fprintf(stderr, "load: what to do? The beginning of load.c says how\n");
        return 1;
    }
    port = atoi(words[1]);
    kind = strcmp(words[2], "read") == 0 ? READ : strcmp(words[2], "flush") == 0 ? FLUSH : WRITE;
    flags = strcmp(words[2], "fua") == 0 ? FUA : 0;
    is_sequential = strcmp(words[3], "sequential") == 0;
    size = (uint32_t)atoi(words[4]);
    depth = atoi(words[5]);
    clients = atoi(words[6]);
    seconds = atof(words[7]);
    if (depth < 1 || depth > MOST_DEPTH || clients < 1 || clients > 64 || size < 1) {
        fprintf(stderr, "load: depth is 1 to %d, clients 1 to 64\n", MOST_DEPTH);
        return 1;
    }
    struct client *all = calloc((size_t)clients, sizeof *all);
    pthread_t threads[64];
    pthread_barrier_init(&ready, NULL, (unsigned)clients);
    // A client whose server hangs would wait for ever.
    alarm((unsigned)seconds + 30);
    for (int n = 0; n < clients; n++) {
        all[n].number = n;
        if (pthread_create(&threads[n], NULL, play, &all[n]) != 0)
            fail("starting a thread");
    }
    uint64_t done = 0, longest = 0;
    for (int n = 0; n < clients; n++) {
        pthread_join(threads[n], NULL);
        done += all[n].done;
        longest = all[n].longest > longest ? all[n].longest : longest;
    }
    struct rusage used;
    getrusage(RUSAGE_SELF, &used);
    double own = (double)(used.ru_utime.tv_sec + used.ru_stime.tv_sec) +
                 (double)(used.ru_utime.tv_usec + used.ru_stime.tv_usec) / 1e6;
    printf("%llu %.3f %.1f %.1f %.1f %.3f\n", (unsigned long long)done, seconds, percentile(all, 0.5), percentile(all, 0.99),
           (double)longest / 1e3, own);
    return 0;
}
