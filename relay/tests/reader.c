#include "reader.h"

#include <stdio.h>
#include <stdlib.h>
#include <string.h>

#include "check.h"
#include "lent.h"

#define E "\xC3\xA9"

/* A call in one kind of memory that is to answer and to write just this. */
static void expect_read(area_kind kind, bytes header, size_t place,
                        size_t room, hennelaku_read_answer want,
                        bytes written)
{
    lent l = lent_new(kind, header, room);
    hennelaku_read_answer a = hennelaku_read_downgraded(
        l.input.at, header.len, place, l.buffer.at, room);

    if (a.number != want.number || a.start != want.start
        || a.next != want.next || a.length != want.length) {
        blame("%u from %zu to %zu, length %zu; not %u from %zu to %zu, length "
              "%zu, place %zu, room %zu", (unsigned)a.number, a.start, a.next,
              a.length, (unsigned)want.number, want.start, want.next,
              want.length, place, room);
    }
    lent_expect(&l, written);
    lent_free(&l);
}

/* A field that is read: with ample room, with just enough, with one byte less
 * and with none. */
static void expect_text(bytes header, size_t place, size_t start, size_t next,
                        bytes text_)
{
    hennelaku_read_answer want = {HENNELAKU_READ_TEXT, start, next, text_.len};
    hennelaku_read_answer no_room = {HENNELAKU_READ_ROOM, start, next,
                                     text_.len};
    bytes none = {NULL, 0};
    int kind;

    for (kind = 0; kind < AREA_KINDS; kind++) {
        area_kind k = (area_kind)kind;

        expect_read(k, header, place, header.len, want, text_);
        expect_read(k, header, place, text_.len, want, text_);
        if (text_.len > 0) {
            expect_read(k, header, place, text_.len - 1, no_room, none);
            expect_read(k, header, place, 0, no_room, none);
        }
    }
}

/* A field that is refused, or none: with ample room and with none. */
static void expect_no_text(bytes header, size_t place, uint32_t number,
                           size_t start, size_t next)
{
    hennelaku_read_answer want = {number, start, next, 0};
    bytes none = {NULL, 0};
    int kind;

    for (kind = 0; kind < AREA_KINDS; kind++) {
        expect_read((area_kind)kind, header, place, header.len + 10, want,
                    none);
        expect_read((area_kind)kind, header, place, 0, want, none);
    }
}

/* What follows `Downgraded-X:` in a header, and the text, or the number. */
typedef struct reader_case {
    const char *value;
    const char *text;
    uint32_t number;
} reader_case;

#define Q(text) "=?UTF-8?Q?" text "?="
#define B(text) "=?UTF-8?B?" text "?="

static const reader_case cases_of_text[] = {
    {"\r\n", "", 0},
    {" \t\r\n", "", 0},
    {" a b\r\n", "a b", 0},
    {"\t  a  b \t\r\n", "a  b \t", 0},
    {" a\r\n b\r\n\tc\r\n", "a b\tc", 0},
    {"\r\n a\r\n", "a", 0},
    {" " E "\r\n", E, 0},
    {" " Q("=C3=A9") "\r\n", E, 0},
    {" " Q("a_=c3=A9") "\r\n", "a " E, 0},
    {" =?utf-8?q?a?=\r\n", "a", 0},
    {" =?Utf-8?b?w6k=?=\r\n", E, 0},
    {" " B("YQ==") "\r\n", "a", 0},
    {" " B("YWI=") "\r\n", "ab", 0},
    {" " B("YWJj") "\r\n", "abc", 0},
    {" " B("YWJjZGU=") "\r\n", "abcde", 0},
    {" " Q("a") "\r\n " Q("b") "\r\n", "ab", 0},
    {" " Q("a") " \t " B("Yg==") " " Q("c") "\r\n", "abc", 0},
    {" " Q("a") " b " Q("c") "\r\n", "a b c", 0},
    {" a  " Q("b") "\t c\r\n", "a  b\t c", 0},
    {" " Q("a") " \r\n", "a ", 0},
    {"   " Q("a") "\r\n", "a", 0},
    {" " Q("") "\r\n", "", 0},
    {" " B("") "\r\n", "", 0},
    {" " Q("") " a\r\n", " a", 0},
    {" " Q("=00=0D=0A=1B") "\r\n", NULL, 0},
    {" " Q("()<>@,;:[].") "\r\n", "()<>@,;:[].", 0},
    {" =?=\r\n", "=?=", 0},
    {" =?\r\n", "=?", 0},
    {" ?=\r\n", "?=", 0},
    {" =?UTF-8?Q?a\r\n", "=?UTF-8?Q?a", 0},
    {" UTF-8?Q?a?=\r\n", "UTF-8?Q?a?=", 0},
    {" a" Q("a") "\r\n", "a" Q("a"), 0},
    {" " Q("a") "b\r\n", Q("a") "b", 0},
    {" (" Q("a") ")\r\n", "(" Q("a") ")", 0},
    {" \" " Q("a") " \"\r\n", "\" a \"", 0},
    {" =?" "?=\r\n", NULL, HENNELAKU_READ_WORD},
    {" =?UTF-8?=\r\n", NULL, HENNELAKU_READ_WORD},
    {" =?UTF-8?Q?=\r\n", NULL, HENNELAKU_READ_WORD},
    {" " Q("a?b") "\r\n", NULL, HENNELAKU_READ_WORD},
    {" " Q("a") Q("b") "\r\n", NULL, HENNELAKU_READ_WORD},
    {" =?UTF-8?X?a?=\r\n", NULL, HENNELAKU_READ_WORD},
    {" =?UTF-8??a?=\r\n", NULL, HENNELAKU_READ_WORD},
    {" =?UTF-8?QQ?a?=\r\n", NULL, HENNELAKU_READ_WORD},
    {" " Q("=") "\r\n", NULL, HENNELAKU_READ_WORD},
    {" " Q("=4") "\r\n", NULL, HENNELAKU_READ_WORD},
    {" " Q("=4G") "\r\n", NULL, HENNELAKU_READ_WORD},
    {" " Q(E) "\r\n", NULL, HENNELAKU_READ_WORD},
    {" " Q("a\x7F") "\r\n", NULL, HENNELAKU_READ_WORD},
    {" " B("w6k") "\r\n", NULL, HENNELAKU_READ_WORD},
    {" " B("w6l=") "\r\n", NULL, HENNELAKU_READ_WORD},
    {" " B("YR==") "\r\n", NULL, HENNELAKU_READ_WORD},
    {" " B("Y===") "\r\n", NULL, HENNELAKU_READ_WORD},
    {" " B("====") "\r\n", NULL, HENNELAKU_READ_WORD},
    {" " B("YQ==YQ==") "\r\n", NULL, HENNELAKU_READ_WORD},
    {" " B("Y*==") "\r\n", NULL, HENNELAKU_READ_WORD},
    {" " B("YQ=a") "\r\n", NULL, HENNELAKU_READ_WORD},
    {" a " Q("b") " " Q("=4") "\r\n", NULL, HENNELAKU_READ_WORD},
    {" =??Q?a?=\r\n", NULL, HENNELAKU_READ_CHARSET},
    {" =?" E "?Q?a?=\r\n", NULL, HENNELAKU_READ_CHARSET},
    {" =?ISO-8859-1?Q?a?=\r\n", NULL, HENNELAKU_READ_CHARSET},
    {" =?UTF-8*en?Q?a?=\r\n", NULL, HENNELAKU_READ_CHARSET},
    {" =?UTF8?B?YQ==?=\r\n", NULL, HENNELAKU_READ_CHARSET},
    {" " Q("=C3") "\r\n", NULL, HENNELAKU_READ_UTF8},
    {" " Q("=C3") " " Q("=A9") "\r\n", NULL, HENNELAKU_READ_UTF8},
    {" " B("w6nD") "\r\n", NULL, HENNELAKU_READ_UTF8},
    {" " Q("=ED=A0=80") "\r\n", NULL, HENNELAKU_READ_UTF8},
    /* The lowest number that holds of the field. */
    {" =?a?Q?=4?=\r\n", NULL, HENNELAKU_READ_WORD},
    {" =?a?X?a?=\r\n", NULL, HENNELAKU_READ_WORD},
    {" =?a?Q?=C3?=\r\n", NULL, HENNELAKU_READ_CHARSET},
    {" " Q("=C3") " =?a?Q?a?=\r\n", NULL, HENNELAKU_READ_CHARSET},
    {" " Q("=C3") " " Q("=4") "\r\n", NULL, HENNELAKU_READ_WORD},
    {" =?a?Q?a?= " Q("?") "\r\n", NULL, HENNELAKU_READ_WORD},
    {" " Q("=4") "\r\n \xC3\r\n", NULL, HENNELAKU_READ_FIELD},
    {" a\n\r\n", NULL, HENNELAKU_READ_FIELD},
    {" a\rb\r\n", NULL, HENNELAKU_READ_FIELD},
    {" \xC3\r\n", NULL, HENNELAKU_READ_FIELD},
    {" a", NULL, HENNELAKU_READ_FIELD},
    {" a\r", NULL, HENNELAKU_READ_FIELD},
    {" a\r\n b", NULL, HENNELAKU_READ_FIELD}
};

/* A value between two other fields; one whose last line has no CRLF ends the
 * header. */
static void expect_value(const reader_case *c)
{
    text header = text_new(2000);
    size_t start;
    size_t next;

    text_add(&header, "X: b\r\n");
    start = header.len;
    text_add(&header, "Downgraded-X:");
    text_add(&header, c->value);
    next = header.len;
    if (header.at[next - 1] == '\n') {
        text_add(&header, "Y: c\r\n");
    }
    if (c->number != 0) {
        expect_no_text(text_bytes(&header), 0, c->number, start, next);
    } else if (c->text == NULL) {
        bytes controls = {(const uint8_t *)"\0\r\n\x1B", 4};

        expect_text(text_bytes(&header), 0, start, next, controls);
    } else {
        expect_text(text_bytes(&header), 0, start, next, bytes_of(c->text));
    }
    text_free(&header);
}

static void test_values(void)
{
    size_t i;

    for (i = 0; i < sizeof cases_of_text / sizeof cases_of_text[0]; i++) {
        char name[100];

        expect_value(&cases_of_text[i]);
        snprintf(name, sizeof name, "reader: value %zu", i);
        report(name);
    }
}

/* Headers without a field, and lines that do not begin one. */
static void test_none(void)
{
    static const char *const headers[] = {
        "", "X: b\r\n", "X-Downgraded-To: a\r\n", " Downgraded-To: a\r\n",
        "X: b\r\n Downgraded-To: a\r\n", "Downgraded: a\r\n", "X: a\nDowngraded-To: a\r\n"
    };
    size_t i;

    for (i = 0; i < sizeof headers / sizeof headers[0]; i++) {
        bytes h = bytes_of(headers[i]);

        expect_no_text(h, 0, HENNELAKU_READ_NONE, h.len, h.len);
        expect_no_text(h, h.len, HENNELAKU_READ_NONE, h.len, h.len);
        expect_no_text(h, SIZE_MAX, HENNELAKU_READ_NONE, h.len, h.len);
    }
    report("reader: none");
}

/* Malformed by its name or its size. */
static void test_names(void)
{
    text h = text_new(3000);

    text_add(&h, "Downgraded-");
    text_fill(&h, 'x', 76);
    text_add(&h, ": a\r\n");
    expect_text(text_bytes(&h), 0, 0, h.len, bytes_of("a"));
    h.len = 0;
    text_add(&h, "Downgraded-");
    text_fill(&h, 'x', 77);
    text_add(&h, ": a\r\n");
    expect_no_text(text_bytes(&h), 0, HENNELAKU_READ_FIELD, 0, h.len);
    report("reader: names of 87 and 88 bytes");
    expect_text(bytes_of("dOWNGRADED-: a\r\n"), 0, 0, 16, bytes_of("a"));
    expect_no_text(bytes_of("Downgraded-\r\n"), 0, HENNELAKU_READ_FIELD, 0, 13);
    expect_no_text(bytes_of("Downgraded-"), 0, HENNELAKU_READ_FIELD, 0, 11);
    expect_no_text(bytes_of("Downgraded-X : a\r\n"), 0, HENNELAKU_READ_FIELD, 0, 18);
    expect_no_text(bytes_of("Downgraded-" E ": a\r\n"), 0, HENNELAKU_READ_FIELD, 0, 18);
    report("reader: malformed names");
    h.len = 0;
    text_add(&h, "Downgraded-X: ");
    text_fill(&h, 'a', 998 - 14);
    text_add(&h, "\r\n ");
    text_fill(&h, 'b', 997);
    text_add(&h, "\r\n");
    {
        text want = text_new(3000);

        text_fill(&want, 'a', 998 - 14);
        text_add(&want, " ");
        text_fill(&want, 'b', 997);
        expect_text(text_bytes(&h), 0, 0, h.len, text_bytes(&want));
        text_free(&want);
    }
    h.len -= 2;
    text_add(&h, "b\r\n");
    expect_no_text(text_bytes(&h), 0, HENNELAKU_READ_FIELD, 0, h.len);
    text_free(&h);
    report("reader: lines of 998 and 999 bytes");
}

/* Places in and between the fields of a header. */
static void test_places(void)
{
    static const char header[] =
        "X: b\r\nDowngraded-A: a\r\n \r\n\r\nDowngraded-B: \xC3\r\nDowngraded-C: c\r\nY: d\r\n";
    bytes h = bytes_of(header);
    size_t a = (size_t)(strstr(header, "Downgraded-A") - header);
    size_t b = (size_t)(strstr(header, "Downgraded-B") - header);
    size_t c = (size_t)(strstr(header, "Downgraded-C") - header);
    size_t after_a = b - 2;
    size_t after_c = (size_t)(strstr(header, "Y: d") - header);
    size_t place;

    for (place = 0; place <= h.len + 2; place++) {
        if (place <= a) {
            expect_text(h, place, a, after_a, bytes_of("a "));
        } else if (place <= b) {
            expect_no_text(h, place, HENNELAKU_READ_FIELD, b, c);
        } else if (place <= c) {
            expect_text(h, place, c, after_c, bytes_of("c"));
        } else {
            expect_no_text(h, place, HENNELAKU_READ_NONE, h.len, h.len);
        }
    }
    report("reader: every place of a header");
}

/* A header and a field of any size. */
static void test_sizes(void)
{
    text h = text_new(3000000);
    text want = text_new(3000000);
    hennelaku_read_answer a;
    uint8_t *buffer = malloc(3000000);
    size_t i;

    text_add(&h, "X: b\r\nDowngraded-X:");
    for (i = 0; i < 30000; i++) {
        text_add(&h, " " Q("=C3=A9_a") "\r\n");
        text_add(&want, E " a");
    }
    text_add(&h, "Y: b\r\n");
    a = hennelaku_read_downgraded(h.at, h.len, 0, buffer, want.len);
    if (a.number != HENNELAKU_READ_TEXT || a.length != want.len
        || memcmp(buffer, want.at, want.len) != 0) {
        blame("%u, %zu bytes", (unsigned)a.number, a.length);
    }
    free(buffer);
    text_free(&h);
    text_free(&want);
    report("reader: a field of 30,000 words");
}

/* Null pointers with a length of 0. */
static void test_null(void)
{
    bytes header = bytes_of("Downgraded-X:\r\n");
    hennelaku_read_answer a = hennelaku_read_downgraded(NULL, 0, 0, NULL, 0);

    if (a.number != HENNELAKU_READ_NONE || a.start != 0 || a.next != 0) {
        blame("%u for nothing", (unsigned)a.number);
    }
    a = hennelaku_read_downgraded(header.at, header.len, 0, NULL, 0);
    if (a.number != HENNELAKU_READ_TEXT || a.length != 0
        || a.next != header.len) {
        blame("%u for an empty text", (unsigned)a.number);
    }
    report("reader: null with 0");
}

static uint32_t next_random(uint32_t *state)
{
    *state = *state * 1664525u + 1013904223u;
    return *state >> 16;
}

/* A text of a field: characters of one to four bytes, none of them a blank at
 * the front. */
static void add_random_text(text *t, uint32_t *state)
{
    static const char *const characters[] = {
        "a", " ", "=", "?", "_", "=?UTF-8?Q?a?=", E, "\xCE\xBB",
        "\xE6\xB8\xAF", "\xF0\x9F\x9A\xA2", "\t", "."
    };
    uint32_t count = 1 + next_random(state) % 100;

    text_add(t, E);
    for (; count > 0; count--) {
        text_add(t, characters[next_random(state) % 12]);
    }
}

/* What our calls encode reads back as it was: a field that is encapsulated by
 * the relay's call, and one by the mailbox's. */
static void expect_round_trip(uint32_t *state)
{
    static uint8_t envelope_out[100];
    static uint8_t out[100000];
    bytes e = bytes_of(PLAIN);
    text t = text_new(3000);
    text h = text_new(4000);
    hennelaku_answer a;
    hennelaku_mailbox_answer m;
    bytes header = {out, 0};

    add_random_text(&t, state);
    text_add(&h, "X-A: ");
    memcpy(h.at + h.len, t.at, t.len);
    h.len += t.len;
    text_add(&h, "\r\n");
    a = hennelaku_downgrade(HENNELAKU_CURRENT, e.at, e.len, h.at, h.len,
                            envelope_out, sizeof envelope_out, out,
                            sizeof out);
    header.len = a.header_len;
    expect_text(header, 0, 0, header.len, text_bytes(&t));
    memcpy(h.at, "To: ", 4);
    memmove(h.at + 4, h.at + 5, h.len - 5);
    h.len--;
    m = hennelaku_downgrade_mailbox(h.at, h.len, out, sizeof out);
    header.len = m.length;
    if (header.len > 11 && out[0] == 'D') {
        expect_text(header, 0, 0, header.len, text_bytes(&t));
    }
    text_free(&t);
    text_free(&h);
}

static void test_round_trips(void)
{
    uint32_t state = 6857;
    int turn;

    for (turn = 0; turn < 300; turn++) {
        expect_round_trip(&state);
    }
    report("reader: what our calls encode reads back");
}

void test_reader(void)
{
    test_values();
    test_none();
    test_names();
    test_places();
    test_sizes();
    test_null();
    test_round_trips();
}
