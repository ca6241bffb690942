#define _XOPEN_SOURCE 700

#include "surrogate.h"

#include <stdio.h>
#include <string.h>
#include <time.h>
#include <unistd.h>

#include "fields.h"
#include "hennelaku.h"

/* `_` stands in no line of base64. */
#define BOUNDARY "=_hennelaku_original"

/* Bytes of the original on a line of base64. */
#define LINE_BYTES 57

static void add_base64(buffer *to, part p)
{
    static const char digits[] =
        "ABCDEFGHIJKLMNOPQRSTUVWXYZabcdefghijklmnopqrstuvwxyz0123456789+/";
    size_t i;

    for (i = 0; i < p.len; i += 3) {
        size_t left = p.len - i;
        unsigned bits = (unsigned)p.bytes[i] << 16
                      | (left > 1 ? (unsigned)p.bytes[i + 1] << 8 : 0)
                      | (left > 2 ? (unsigned)p.bytes[i + 2] : 0);

        buffer_add_byte(to, (uint8_t)digits[bits >> 18]);
        buffer_add_byte(to, (uint8_t)digits[bits >> 12 & 63]);
        buffer_add_byte(to, left > 1 ? (uint8_t)digits[bits >> 6 & 63] : '=');
        buffer_add_byte(to, left > 2 ? (uint8_t)digits[bits & 63] : '=');
        if ((i + 3) % LINE_BYTES == 0 && left > 3) {
            buffer_add_text(to, "\r\n");
        }
    }
    buffer_add_text(to, "\r\n");
}

/* Adds the header's first field of a name as the library downgrades it by
 * itself. Returns 0 where it does not come out under that name. */
static int add_downgraded(buffer *to, part header, const char *name)
{
    part named = part_of(name);
    buffer out = {NULL, 0, 0, 0};
    int is_named = 0;
    part field;

    if (find_field(header, named, &field)
        && buffer_reserve(&out, HENNELAKU_HEADER_ROOM_MAX)) {
        out.len = hennelaku_downgrade_mailbox(field.bytes, field.len,
                                              out.bytes, out.room).length;
        is_named = begins_field(buffer_part(&out), 0, named);
        buffer_add(to, buffer_part(&out));
    }
    buffer_clear(&out);
    return is_named;
}

/* The name of this machine where it can stand in an address. */
static void add_host(buffer *to)
{
    char name[256];
    int fits = gethostname(name, sizeof name) == 0
            && memchr(name, '\0', sizeof name) != NULL && name[0] != '\0'
            && strspn(name, "abcdefghijklmnopqrstuvwxyz0123456789-."
                            "ABCDEFGHIJKLMNOPQRSTUVWXYZ") == strlen(name);

    buffer_add_text(to, fits ? name : "localhost");
}

/* The date of now, by UTC and in English whatever the locale. */
static void add_date(buffer *to)
{
    static const char days[] = "SunMonTueWedThuFriSat";
    static const char months[] = "JanFebMarAprMayJunJulAugSepOctNovDec";
    time_t now = time(NULL);
    struct tm t;
    char text[64];

    if (gmtime_r(&now, &t) != NULL) {
        snprintf(text, sizeof text,
                 "Date: %.3s, %d %.3s %d %02d:%02d:%02d +0000\r\n",
                 days + 3 * t.tm_wday, t.tm_mday, months + 3 * t.tm_mon,
                 1900 + t.tm_year, t.tm_hour, t.tm_min, t.tm_sec);
        buffer_add_text(to, text);
    }
}

static void add_fields(buffer *to, part header)
{
    if (!add_downgraded(to, header, "From")) {
        buffer_add_text(to, "From: Mail server <postmaster@");
        add_host(to);
        buffer_add_text(to, ">\r\n");
    }
    add_downgraded(to, header, "To");
    if (!add_downgraded(to, header, "Subject")) {
        buffer_add_text(to, "Subject: A message that is not in ASCII\r\n");
    }
    if (!add_downgraded(to, header, "Date")) {
        add_date(to);
    }
}

void add_surrogate(buffer *to, part header, part original, part reason)
{
    add_fields(to, header);
    buffer_add_text(to,
        "MIME-Version: 1.0\r\n"
        "Content-Type: multipart/mixed; boundary=\"" BOUNDARY "\"\r\n"
        "\r\n"
        "--" BOUNDARY "\r\n"
        "Content-Type: text/plain; charset=US-ASCII\r\n"
        "\r\n"
        "The mail server has a message for you that programs which know only "
        "ASCII\r\n"
        "cannot show. It is attached as it came, and can be read by a "
        "program that\r\n"
        "knows mail in UTF-8 (RFC 6532). It was not changed to ASCII, "
        "because:\r\n"
        "\r\n"
        "    ");
    buffer_add(to, reason);
    buffer_add_text(to,
        "\r\n"
        "\r\n"
        "--" BOUNDARY "\r\n"
        "Content-Type: message/global\r\n"
        "Content-Disposition: attachment; filename=\"original.eml\"\r\n"
        "Content-Transfer-Encoding: base64\r\n"
        "\r\n");
    add_base64(to, original);
    buffer_add_text(to, "--" BOUNDARY "--\r\n");
}
