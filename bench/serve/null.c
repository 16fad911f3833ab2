/* An agent that reads what there is and answers five bytes: what sockets alone cost. The word is its socket. */
#include "door.h"

int main(int argc, char **argv)
{
    static char room[16384];
    if (argc != 2)
        errx(2, "words: SOCKET");
    int epoll = epoll_create1(0), door = door_at(epoll, argv[1]);
    for (;;) {
        struct epoll_event events[64];
        int count = epoll_wait(epoll, events, 64, -1);
        for (int i = 0; i < count; i++) {
            int fd = events[i].data.fd;
            if (fd == door) {
                watch(epoll, accept(door, NULL, NULL));
            } else if (read(fd, room, sizeof room) <= 0) {
                close(fd);
            } else if (send(fd, "\0\0\0\1\5", 5, MSG_NOSIGNAL) != 5) {
                close(fd);
            }
        }
    }
}
