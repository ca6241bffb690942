/* Fuzzes what a server says: replies, their codes and texts. */
#include <string.h>
#include <sys/socket.h>
#include <unistd.h>

#include "must.h"
#include "reply.h"

static void check_reply(const reply *r)
{
    buffer told = {NULL, 0, 0, 0};
    char enhanced[12];

    must(r->code >= 200 && r->code <= 599);
    read_enhanced(r, '4', enhanced);
    must(enhanced[0] == '4' && enhanced[1] == '.');
    must(strspn(enhanced, "0123456789.") == strlen(enhanced));
    add_reply(&told, r);
    must_be_text(buffer_part(&told));
    must(part_is_ascii(buffer_part(&told)));
    offers(r, "8BITMIME");
    offers(r, "SIZE");
    buffer_clear(&told);
}

int LLVMFuzzerTestOneInput(const uint8_t *data, size_t size)
{
    enum io_result io = IO_DONE;
    buffer line = {NULL, 0, 0, 0};
    connection c;
    int ends[2];
    reply r;

    if (size > 65536) {
        return 0;
    }
    memset(&r, 0, sizeof r);
    memset(&c, 0, sizeof c);
    must(socketpair(AF_UNIX, SOCK_STREAM, 0, ends) == 0);
    must(write(ends[1], data, size) == (ssize_t)size);
    close(ends[1]);
    c.fd = ends[0];
    while (read_reply(&c, &r, &line, &io, deadline_in(5)) == REPLY_READ) {
        check_reply(&r);
    }
    must(io == IO_CLOSED || io == IO_DONE || io == IO_FAILED);
    connection_close(&c);
    buffer_clear(&r.text);
    buffer_clear(&line);
    return 0;
}
