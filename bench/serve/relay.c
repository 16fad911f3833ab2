/* A relay before an agent that passes on what comes and looks at none of it: what the way through another program alone
   costs. The words are the agent's socket and its own. */
#include "door.h"

/* The other side of each connection, by its descriptor. */
static int other[4096];

/* A client, and a connection to the agent for it. */
static void join(int epoll, int door, const struct sockaddr_un *upstream)
{
    int client = accept(door, NULL, NULL), agent = socket(AF_UNIX, SOCK_STREAM, 0);
    if (client < 0 || agent < 0 || client >= 4096 || agent >= 4096)
        err(1, "accept");
    if (connect(agent, (const struct sockaddr *)upstream, sizeof *upstream) < 0)
        err(1, "%s", upstream->sun_path);
    other[client] = agent;
    other[agent] = client;
    watch(epoll, client);
    watch(epoll, agent);
}

int main(int argc, char **argv)
{
    static char room[16384];
    if (argc != 3)
        errx(2, "words: AGENT SOCKET");
    struct sockaddr_un upstream = address_of(argv[1]);
    int epoll = epoll_create1(0), door = door_at(epoll, argv[2]);
    for (;;) {
        struct epoll_event events[64];
        int count = epoll_wait(epoll, events, 64, -1);
        for (int i = 0; i < count; i++) {
            int fd = events[i].data.fd;
            if (fd == door) {
                join(epoll, door, &upstream);
                continue;
            }
            ssize_t length = read(fd, room, sizeof room);
            if (length > 0 && send(other[fd], room, length, MSG_NOSIGNAL) == length)
                continue;
            /* Both are closed, and of events that were told of either no more is done. */
            close(other[fd]);
            close(fd);
            break;
        }
    }
}
