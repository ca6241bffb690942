/* A connection to the next hop, on which nothing waits for longer than it is
 * told to. */
#ifndef CONNECTION_H
#define CONNECTION_H

#include "bytes.h"

typedef struct connection {
    int fd;
    uint8_t in[4096];  /* read, and not yet taken: from `at` on, before `end` */
    size_t at;
    size_t end;
} connection;

enum io_result {
    IO_DONE,
    IO_NO_NAME,   /* the host's name is not found */
    IO_TIMEOUT,
    IO_CLOSED,    /* the other side has closed */
    IO_FAILED     /* errno says why */
};

/* A moment by which something has to be over, in milliseconds of a clock that
 * is never set. */
typedef long long deadline;

deadline deadline_in(int seconds);

/* Connects to the first address of the host that takes the connection; each
 * has so many seconds. */
enum io_result connection_open(connection *c, const char *host,
                               const char *port, int seconds);

void connection_close(connection *c);

/* Whether the other side has said or closed something that was not read yet. */
int connection_has_input(connection *c);

/* Takes the next byte. */
enum io_result connection_read(connection *c, uint8_t *byte, deadline by);

/* Sends all of the bytes. */
enum io_result connection_write(connection *c, part p, deadline by);

#endif
