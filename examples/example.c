/*
 * Downgrades a small message and prints what an ASCII-only server would get.
 *
 *     cc example.c $(pkg-config --cflags --libs hennelaku)
 */
#include <stdio.h>
#include <string.h>

#include <hennelaku.h>

static const char envelope[] =
    "MAIL FROM:<\xC3\xA9@example.org> ALT-ADDRESS=e+2Bx@example.org\r\n"
    "RCPT TO:<b@example.net>\r\n";

static const char header[] =
    "Subject: \xC3\xA9\r\n"
    "X-Note: ok\r\n";

/* Large enough for every message, so that 7 and 8 are never answered. */
static uint8_t out_envelope[HENNELAKU_ENVELOPE_ROOM_MAX];
static uint8_t out_header[HENNELAKU_HEADER_ROOM_MAX];

int main(void)
{
    hennelaku_answer answer = hennelaku_downgrade(
        HENNELAKU_SPOOL,
        (const uint8_t *)envelope, strlen(envelope),
        (const uint8_t *)header, strlen(header),
        out_envelope, sizeof out_envelope,
        out_header, sizeof out_header);

    if (answer.number != HENNELAKU_OK) {
        fprintf(stderr, "refused by %u, place %zu, offset %zu: %s\n",
                (unsigned)answer.number, answer.place, answer.offset,
                hennelaku_number_text(answer.number));
        return 1;
    }
    fwrite(out_envelope, 1, answer.envelope_len, stdout);
    fputs("\r\n", stdout);
    fwrite(out_header, 1, answer.header_len, stdout);
    return 0;
}
