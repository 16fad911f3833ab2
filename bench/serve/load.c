/* Asks an agent again and again. Each of CLIENTS connections sends the messages of FILE in turn, and the next one once
 * the reply to the last is there, for SECONDS or until COUNT replies. Prints how many replies came. Before that each
 * sends the message of FIRST, whose reply isn't counted.
 * words: SOCKET CLIENTS SECONDS COUNT FILE [FIRST] */
#include <err.h>
#include <stdint.h>
#include <stdio.h>
#include <stdlib.h>
#include <string.h>
#include <sys/epoll.h>
#include <sys/socket.h>
#include <sys/un.h>
#include <time.h>
#include <unistd.h>

static unsigned char *messages;
static size_t length;

struct client {
    int fd;
    size_t at;             /* of the next message */
    uint64_t left;         /* bytes of the reply that are still to come */
    unsigned char head[4]; /* its length */
    size_t heads;          /* how many bytes of that came */
};

static size_t size_of(const unsigned char *p)
{
    return 4 + (((size_t)p[0] << 24) | (p[1] << 16) | (p[2] << 8) | p[3]);
}

static void ask(struct client *c)
{
    size_t size = size_of(messages + c->at), sent = 0;
    while (sent < size) {
        ssize_t n = write(c->fd, messages + c->at + sent, size - sent);
        if (n <= 0)
            err(1, "write");
        sent += n;
    }
    c->at = c->at + size == length ? 0 : c->at + size;
    c->heads = 0;
    c->left = 0;
}

/* Reads exactly so many bytes. */
static void take(int fd, unsigned char *to, size_t size)
{
    while (size > 0) {
        ssize_t n = read(fd, to, size);
        if (n <= 0)
            errx(1, "the agent closed a connection");
        to += n;
        size -= n;
    }
}

/* Sends a message, and reads the reply. */
static void greet(int fd, const unsigned char *first, size_t size)
{
    static unsigned char reply[1 << 18];
    if (write(fd, first, size) != (ssize_t)size)
        err(1, "write");
    take(fd, reply, 4);
    size_t left = size_of(reply) - 4;
    if (left > sizeof reply)
        errx(1, "a reply is too long");
    take(fd, reply, left);
}

static double now(void)
{
    struct timespec t;
    clock_gettime(CLOCK_MONOTONIC, &t);
    return t.tv_sec + t.tv_nsec / 1e9;
}

int main(int argc, char **argv)
{
    static unsigned char room[1 << 16];
    if (argc != 6 && argc != 7)
        errx(2, "words: SOCKET CLIENTS SECONDS COUNT FILE [FIRST]");
    int clients = atoi(argv[2]);
    double end = now() + atof(argv[3]);
    uint64_t most = strtoull(argv[4], NULL, 10), replies = 0;
    FILE *file = fopen(argv[5], "rb");
    if (!file)
        err(1, "%s", argv[5]);
    messages = malloc(1 << 20);
    length = fread(messages, 1, 1 << 20, file);
    static unsigned char first[1 << 16];
    size_t firsts = 0;
    if (argc == 7) {
        FILE *greeting = fopen(argv[6], "rb");
        if (!greeting)
            err(1, "%s", argv[6]);
        firsts = fread(first, 1, sizeof first, greeting);
    }
    struct sockaddr_un address = { .sun_family = AF_UNIX };
    strncpy(address.sun_path, argv[1], sizeof address.sun_path - 1);
    struct client *all = calloc(clients, sizeof *all);
    int epoll = epoll_create1(0);
    for (int i = 0; i < clients; i++) {
        all[i].fd = socket(AF_UNIX, SOCK_STREAM, 0);
        if (connect(all[i].fd, (struct sockaddr *)&address, sizeof address) < 0)
            err(1, "connect");
        if (firsts > 0)
            greet(all[i].fd, first, firsts);
        struct epoll_event event = { .events = EPOLLIN, .data.ptr = &all[i] };
        epoll_ctl(epoll, EPOLL_CTL_ADD, all[i].fd, &event);
        ask(&all[i]);
    }
    while (replies < most && now() < end) {
        struct epoll_event events[64];
        int count = epoll_wait(epoll, events, 64, 1000);
        for (int i = 0; i < count; i++) {
            struct client *c = events[i].data.ptr;
            ssize_t n = read(c->fd, room, sizeof room);
            if (n <= 0)
                errx(1, "the agent closed a connection");
            ssize_t used = 0;
            while (used < n) {
                if (c->heads < 4) {
                    c->head[c->heads++] = room[used++];
                    if (c->heads == 4)
                        c->left = size_of(c->head) - 4;
                    continue;
                }
                ssize_t take = (uint64_t)(n - used) < c->left ? n - used : (ssize_t)c->left;
                used += take;
                c->left -= take;
            }
            if (c->heads == 4 && c->left == 0) {
                replies++;
                ask(c);
            }
        }
    }
    printf("%llu\n", (unsigned long long)replies);
    return 0;
}
