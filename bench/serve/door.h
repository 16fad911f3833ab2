/* What the small agents of these measurements share: a socket that listens, and what epoll is to tell of. */
#include <err.h>
#include <string.h>
#include <sys/epoll.h>
#include <sys/socket.h>
#include <sys/un.h>
#include <unistd.h>

static struct sockaddr_un address_of(const char *path)
{
    struct sockaddr_un address = { .sun_family = AF_UNIX };
    strncpy(address.sun_path, path, sizeof address.sun_path - 1);
    return address;
}

/* epoll tells of what may be read there. */
static void watch(int epoll, int fd)
{
    struct epoll_event event = { .events = EPOLLIN, .data.fd = fd };
    epoll_ctl(epoll, EPOLL_CTL_ADD, fd, &event);
}

/* A socket that listens at this path, of which epoll tells. */
static int door_at(int epoll, const char *path)
{
    struct sockaddr_un address = address_of(path);
    int door = socket(AF_UNIX, SOCK_STREAM | SOCK_NONBLOCK, 0);
    if (bind(door, (struct sockaddr *)&address, sizeof address) < 0 || listen(door, 128) < 0)
        err(1, "%s", path);
    watch(epoll, door);
    return door;
}
