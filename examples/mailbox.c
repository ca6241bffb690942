/*
 * Downgrades the header of a small stored message for a program that knows only
 * ASCII, and prints it.
 *
 *     cc mailbox.c $(pkg-config --cflags --libs hennelaku)
 */
#include <stdio.h>
#include <string.h>

#include <hennelaku.h>

static const char header[] =
    "From: \xCE\x9B\xCE\xB9\xCE\xBC\xCE\xAC\xCE\xBD\xCE\xB9 "
    "<\xCE\xBB@example.org>, b@example.net\r\n"
    "Subject: \xC3\xA9\r\n"
    "X-Berth: 3\r\n";

/* Large enough for every header, so that 8 is never answered. */
static uint8_t out[HENNELAKU_HEADER_ROOM_MAX];

int main(void)
{
    hennelaku_mailbox_answer answer = hennelaku_downgrade_mailbox(
        (const uint8_t *)header, strlen(header), out, sizeof out);

    if (answer.number != HENNELAKU_OK) {
        fprintf(stderr, "refused by %u, line %zu, byte %zu: %s\n",
                (unsigned)answer.number, answer.place, answer.offset,
                hennelaku_number_text(answer.number));
        return 1;
    }
    fwrite(out, 1, answer.length, stdout);
    return 0;
}
