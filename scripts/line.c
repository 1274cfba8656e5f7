/* line: a line with a delay between two network namespaces. scripts/line builds and runs it.
 *
 *     line NEAR FAR MICROSECONDS
 *
 * NEAR and FAR are files of namespaces, as /proc/PID/ns/net. Each gets a TUN device that is called "line". A packet that is written to one
 * comes out of the other so many microseconds later, and none overtakes another. A way holds up to 8,192 packets: what comes while it is full
 * is lost. It prints "up" once both devices are there, and runs until it is killed. It may have to be root, or root of a user namespace.
 */
#define _GNU_SOURCE
#include <fcntl.h>
#include <linux/if_tun.h>
#include <net/if.h>
#include <poll.h>
#include <sched.h>
#include <stdint.h>
#include <stdio.h>
#include <stdlib.h>
#include <string.h>
#include <sys/ioctl.h>
#include <time.h>
#include <unistd.h>

enum { HELD = 8192, LARGEST = 2048 }; /* packets of a way, and the bytes of one; the devices have the usual 1,500 */

struct packet {
    int64_t due;
    ssize_t size;
    char bytes[LARGEST];
};

/* One direction: packets are put at `end` and taken at `begin`, both counted from the start. */
struct way {
    int from, to;
    uint64_t begin, end;
    struct packet held[HELD];
};

static void fail(const char *what) {
    perror(what);
    exit(1);
}

/* Nanoseconds of a clock that is never set. */
static int64_t now(void) {
    struct timespec t;
    clock_gettime(CLOCK_MONOTONIC, &t);
    return t.tv_sec * 1000000000LL + t.tv_nsec;
}

/* The device of a namespace. Reading it waits for nothing. */
static int device(const char *namespace) {
    int there = open(namespace, O_RDONLY | O_CLOEXEC);
    if (there < 0 || setns(there, CLONE_NEWNET) != 0) fail(namespace);
    close(there);
    int tun = open("/dev/net/tun", O_RDWR | O_NONBLOCK | O_CLOEXEC);
    struct ifreq request = {.ifr_name = "line", .ifr_flags = IFF_TUN | IFF_NO_PI};
    if (tun < 0 || ioctl(tun, TUNSETIFF, &request) != 0) fail("/dev/net/tun");
    return tun;
}

/* Takes what was written to the one end. */
static void take(struct way *way, int64_t delay) {
    char lost[LARGEST];
    for (;;) {
        int full = way->end - way->begin == HELD;
        struct packet *packet = &way->held[way->end % HELD];
        ssize_t size = read(way->from, full ? lost : packet->bytes, LARGEST);
        if (size <= 0) return;
        if (full) continue;
        packet->due = now() + delay;
        packet->size = size;
        way->end++;
    }
}

/* Gives to the other end what is due. A packet that it does not take is lost. */
static void give(struct way *way) {
    while (way->begin < way->end && way->held[way->begin % HELD].due <= now()) {
        struct packet *packet = &way->held[way->begin % HELD];
        if (write(way->to, packet->bytes, packet->size) < 0) { /* (as on a line) */ }
        way->begin++;
    }
}

/* When the next packet of the ways is due, or never. */
static int64_t next_due(const struct way *ways) {
    int64_t due = INT64_MAX;
    for (int i = 0; i < 2; i++)
        if (ways[i].begin < ways[i].end && ways[i].held[ways[i].begin % HELD].due < due) due = ways[i].held[ways[i].begin % HELD].due;
    return due;
}

int main(int count, char **words) {
    static struct way ways[2];
    if (count != 4) {
        fputs("line NEAR FAR MICROSECONDS\n", stderr);
        return 2;
    }
    ways[0].from = ways[1].to = device(words[1]);
    ways[0].to = ways[1].from = device(words[2]);
    int64_t delay = atoll(words[3]) * 1000;
    puts("up");
    fflush(stdout);
    for (;;) {
        struct pollfd ends[2] = {{ways[0].from, POLLIN, 0}, {ways[1].from, POLLIN, 0}};
        int64_t due = next_due(ways), left = due - now();
        if (left < 0) left = 0;
        struct timespec wait = {left / 1000000000, left % 1000000000};
        if (ppoll(ends, 2, due == INT64_MAX ? NULL : &wait, NULL) < 0) fail("ppoll");
        for (int i = 0; i < 2; i++) {
            take(&ways[i], delay);
            give(&ways[i]);
        }
    }
}
