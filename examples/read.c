/*
 * Prints the texts of the Downgraded- fields of a small header.
 *
 *     cc read.c $(pkg-config --cflags --libs hennelaku)
 *
 * For a terminal a text has to be quoted, as hennelaku-read does: it may hold
 * control characters.
 */
#include <stdio.h>
#include <string.h>

#include <hennelaku.h>

static const char header[] =
    "Downgraded-Mail-From: =?UTF-8?Q?=3C=C3=A9=40example=2Eorg?=\r\n"
    " =?UTF-8?Q?_=3Ce+x=40example=2Eorg=3E=3E?=\r\n"
    "Subject: storm\r\n"
    "Downgraded-X-Berth: =?UTF-8?B?z4DPgc6/zrLOu86uz4TOsQ==?= 3\r\n"
    "Downgraded-X-Port: =?ISO-8859-1?Q?=E9?=\r\n";

/* No text is longer than its header. */
static uint8_t text[sizeof header];

int main(void)
{
    size_t place = 0;

    for (;;) {
        hennelaku_read_answer a = hennelaku_read_downgraded(
            (const uint8_t *)header, strlen(header), place,
            text, sizeof text);

        if (a.number == HENNELAKU_READ_NONE) {
            return 0;
        }
        if (a.number == HENNELAKU_READ_TEXT) {
            printf("%.*s\n", (int)a.length, (const char *)text);
        } else {
            printf("refused by %u at byte %zu\n", (unsigned)a.number, a.start);
        }
        place = a.next;
    }
}
