#define _POSIX_C_SOURCE 200809L

#include "connection.h"

#include <errno.h>
#include <fcntl.h>
#include <netdb.h>
#include <poll.h>
#include <string.h>
#include <sys/socket.h>
#include <time.h>
#include <unistd.h>

static deadline clock_now(void)
{
    struct timespec t;

    clock_gettime(CLOCK_MONOTONIC, &t);
    return (deadline)t.tv_sec * 1000 + t.tv_nsec / 1000000;
}

deadline deadline_in(int seconds)
{
    return clock_now() + (deadline)seconds * 1000;
}

/* Waits until the socket can be read or written. */
static enum io_result wait_for(int fd, short events, deadline by)
{
    struct pollfd p;

    p.fd = fd;
    p.events = events;
    for (;;) {
        deadline left = by - clock_now();
        int ready = poll(&p, 1, left > 0 ? (int)left : 0);

        if (ready > 0) {
            return IO_DONE;
        }
        if (ready < 0 && errno != EINTR) {
            return IO_FAILED;
        }
        if (left <= 0) {
            return IO_TIMEOUT;
        }
    }
}

static enum io_result finish_connect(int fd, deadline by)
{
    enum io_result r = wait_for(fd, POLLOUT, by);
    int error = 0;
    socklen_t len = sizeof error;

    if (r == IO_DONE) {
        if (getsockopt(fd, SOL_SOCKET, SO_ERROR, &error, &len) != 0) {
            return IO_FAILED;
        }
        if (error != 0) {
            errno = error;
            return IO_FAILED;
        }
    }
    return r;
}

/* Connects to one address. */
static enum io_result connect_to(connection *c, const struct addrinfo *a,
                                 int seconds)
{
    enum io_result r = IO_DONE;
    int flags;
    int error;

    c->fd = socket(a->ai_family, a->ai_socktype, a->ai_protocol);
    if (c->fd < 0) {
        return IO_FAILED;
    }
    flags = fcntl(c->fd, F_GETFL);
    if (flags < 0 || fcntl(c->fd, F_SETFL, flags | O_NONBLOCK) < 0) {
        r = IO_FAILED;
    } else if (connect(c->fd, a->ai_addr, a->ai_addrlen) != 0) {
        r = errno == EINPROGRESS ? finish_connect(c->fd, deadline_in(seconds))
                                 : IO_FAILED;
    }
    if (r != IO_DONE) {
        error = errno;
        connection_close(c);
        errno = error;
    }
    return r;
}

enum io_result connection_open(connection *c, const char *host,
                               const char *port, int seconds)
{
    enum io_result r = IO_NO_NAME;
    struct addrinfo hints;
    struct addrinfo *all;
    const struct addrinfo *a;

    c->fd = -1;
    c->at = c->end = 0;
    memset(&hints, 0, sizeof hints);
    hints.ai_family = AF_UNSPEC;
    hints.ai_socktype = SOCK_STREAM;
    if (getaddrinfo(host, port, &hints, &all) != 0) {
        return IO_NO_NAME;
    }
    for (a = all; a != NULL && r != IO_DONE; a = a->ai_next) {
        r = connect_to(c, a, seconds);
    }
    freeaddrinfo(all);
    return r;
}

void connection_close(connection *c)
{
    if (c->fd >= 0) {
        close(c->fd);
    }
    c->fd = -1;
}

int connection_has_input(connection *c)
{
    return c->at < c->end || wait_for(c->fd, POLLIN, 0) == IO_DONE;
}

/* Reads more, where all that was read is taken. */
static enum io_result fill(connection *c, deadline by)
{
    for (;;) {
        enum io_result r = wait_for(c->fd, POLLIN, by);
        ssize_t got;

        if (r != IO_DONE) {
            return r;
        }
        got = recv(c->fd, c->in, sizeof c->in, 0);
        if (got > 0) {
            c->at = 0;
            c->end = (size_t)got;
            return IO_DONE;
        }
        if (got == 0) {
            return IO_CLOSED;
        }
        if (errno != EINTR && errno != EAGAIN && errno != EWOULDBLOCK) {
            return IO_FAILED;
        }
    }
}

enum io_result connection_read(connection *c, uint8_t *byte, deadline by)
{
    enum io_result r = c->at < c->end ? IO_DONE : fill(c, by);

    if (r == IO_DONE) {
        *byte = c->in[c->at++];
    }
    return r;
}

enum io_result connection_write(connection *c, part p, deadline by)
{
    while (p.len > 0) {
        enum io_result r = wait_for(c->fd, POLLOUT, by);
        ssize_t sent;

        if (r != IO_DONE) {
            return r;
        }
        sent = send(c->fd, p.bytes, p.len, MSG_NOSIGNAL);
        if (sent >= 0) {
            p = part_between(p, (size_t)sent, p.len);
        } else if (errno != EINTR && errno != EAGAIN
                   && errno != EWOULDBLOCK) {
            return errno == EPIPE || errno == ECONNRESET ? IO_CLOSED
                                                         : IO_FAILED;
        }
    }
    return IO_DONE;
}
