#include "parameters.h"

#include <stdio.h>
#include <string.h>

#include "check.h"

#define GRIN "\xF0\x9F\x98\x80"
#define E_HEX "%C3%A9"
#define GRIN_HEX "%F0%9F%98%80"

/* A field with one parameter, in and out: its name of so many n, then what the
 * test adds. */
typedef struct field {
    size_t name_len;
    text in;
    text out;
} field;

static field field_new(size_t name_len)
{
    field f = {name_len, text_new(HENNELAKU_MAX_HEADER), text_new(1 << 16)};

    text_add(&f.in, "Content-Type:a;");
    text_fill(&f.in, 'n', name_len);
    text_add(&f.in, "=\"");
    text_add(&f.out, "Content-Type:a;");
    return f;
}

static void add_times(text *t, const char *what, size_t count)
{
    size_t i;

    for (i = 0; i < count; i++) {
        text_add(t, what);
    }
}

/* A line with so many characters, each spelled so: the part of this number. */
static void add_part(field *f, size_t number, const char *spelling,
                     size_t count)
{
    char digits[30];

    text_add(&f->out, number == 0 ? "\r\n " : ";\r\n ");
    text_fill(&f->out, 'n', f->name_len);
    snprintf(digits, sizeof digits, "*%zu*=", number);
    text_add(&f->out, digits);
    text_add(&f->out, number == 0 ? "UTF-8''" : "");
    add_times(&f->out, spelling, count);
}

/* Closes the field: it becomes this, also in buffers of just the size, and is 8 in
 * one a byte shorter. */
static void expect_field(field *f, const char *name)
{
    bytes plain = bytes_of(PLAIN);
    bytes out;
    int kind;

    text_add(&f->in, "\"\r\n");
    text_add(&f->out, "\r\n");
    out = text_bytes(&f->out);
    for (kind = 0; kind < AREA_KINDS; kind++) {
        area_kind k = (area_kind)kind;

        expect_output(HENNELAKU_CURRENT, k, plain, text_bytes(&f->in),
                      plain.len, HENNELAKU_HEADER_ROOM_FOR(f->in.len), plain,
                      out);
        expect_output(HENNELAKU_CURRENT, k, plain, text_bytes(&f->in),
                      plain.len, out.len, plain, out);
        expect_refusal(HENNELAKU_CURRENT, k, plain, text_bytes(&f->in),
                       plain.len, out.len - 1, no_header_room(out.len));
    }
    report(name);
    text_free(&f->in);
    text_free(&f->out);
}

/* Closes the field: it is held, by its byte at this offset of the value. */
static void expect_held(field *f, size_t at, const char *name)
{
    bytes plain = bytes_of(PLAIN);
    size_t offset = strlen("Content-Type:a;=\"") + f->name_len + at;

    text_add(&f->in, "\"\r\n");
    expect_refusal(HENNELAKU_CURRENT, AREA_EXACT, plain, text_bytes(&f->in),
                   plain.len, HENNELAKU_HEADER_ROOM_FOR(f->in.len),
                   refusal(HENNELAKU_HELD, HENNELAKU_HEADER, 0, offset));
    report(name);
    text_free(&f->in);
    text_free(&f->out);
}

/* A line has 76 characters: a space, the name, *n*=, UTF-8'' in part 0, and a ;.
 * For a name of one: 62 in part 0, 69 in parts 1 to 9, 68 in 10 to 99. */
static void test_full_parts(void)
{
    field f = field_new(1);
    size_t part;

    text_add(&f.in, E_ACUTE);
    text_fill(&f.in, 'b', 56 + 9 * 69 + 68 + 1);
    add_part(&f, 0, E_HEX, 1);
    text_fill(&f.out, 'b', 56);
    for (part = 1; part <= 9; part++) {
        add_part(&f, part, "b", 69);
    }
    add_part(&f, 10, "b", 68);
    add_part(&f, 11, "b", 1);
    expect_field(&f, "a parameter in parts, each as full as its line allows");
}

/* For a name of 57: 6 in part 0, 13 in 1 to 9, 12 in 10 to 99, 11 from 100 on. */
static void test_hundred_parts(void)
{
    field f = field_new(57);
    size_t part;

    add_times(&f.in, E_ACUTE, 1 + 99 * 2 + 2);
    add_part(&f, 0, E_HEX, 1);
    for (part = 1; part <= 99; part++) {
        add_part(&f, part, E_HEX, 2);
    }
    add_part(&f, 100, E_HEX, 1);
    add_part(&f, 101, E_HEX, 1);
    expect_field(&f, "a parameter in 102 parts");
}

/* On a line without a number there are 65 less the name, in part 0 63 less it. */
static void test_no_room(void)
{
    field f = field_new(59);

    text_add(&f.in, E_ACUTE);
    text_add(&f.out, "\r\n ");
    text_fill(&f.out, 'n', 59);
    text_add(&f.out, "*=UTF-8''" E_HEX);
    expect_field(&f, "a name of 59 leaves room for one character alone");
    f = field_new(60);
    text_add(&f.in, E_ACUTE);
    expect_held(&f, 0, "6: a name of 60 leaves no room");
    f = field_new(57);
    add_times(&f.in, E_ACUTE, 2);
    add_part(&f, 0, E_HEX, 1);
    add_part(&f, 1, E_HEX, 1);
    expect_field(&f, "a name of 57 leaves room in part 0");
    f = field_new(58);
    add_times(&f.in, E_ACUTE, 2);
    expect_held(&f, 0, "6: a name of 58 leaves no room in part 0");
    f = field_new(63);
    text_add(&f.in, "bbb" E_ACUTE);
    expect_held(&f, 3, "6: a name of 63 leaves part 0 empty");
}

/* A character of 12 is the first that a longer number leaves no room for. */
static void test_no_room_later(void)
{
    static const struct {
        size_t name_len;
        size_t parts; /* with this number there is no room */
        size_t first; /* letters in part 0 */
    } limits[] = {{58, 10, 5}, {57, 100, 6}};
    char name[100];
    size_t i;
    size_t part;

    for (i = 0; i < sizeof limits / sizeof limits[0]; i++) {
        field f = field_new(limits[i].name_len);

        text_fill(&f.in, 'b', limits[i].first);
        add_times(&f.in, GRIN, limits[i].parts - 1);
        add_part(&f, 0, "b", limits[i].first);
        for (part = 1; part < limits[i].parts; part++) {
            add_part(&f, part, GRIN_HEX, 1);
        }
        snprintf(name, sizeof name, "%zu parts have room", limits[i].parts);
        expect_field(&f, name);
        f = field_new(limits[i].name_len);
        text_fill(&f.in, 'b', limits[i].first);
        add_times(&f.in, GRIN, limits[i].parts);
        snprintf(name, sizeof name, "6: part %zu has no room",
                 limits[i].parts);
        expect_held(&f, limits[i].first, name);
    }
}

/* An ASCII parameter is left as it is, however long its name. */
static void test_long_ascii_name(void)
{
    field f = field_new(300);

    text_add(&f.in, "b\";m=\"" E_ACUTE);
    text_fill(&f.out, 'n', 300);
    text_add(&f.out, "=\"b\";\r\n m*=UTF-8''" E_HEX);
    expect_field(&f, "a long name of a parameter in ASCII holds nothing");
}

/* The length of the line of a part, CRLF before it, with so many characters after
 * *n*= of a name of 62. */
static size_t line_len(size_t number, size_t characters)
{
    size_t digits = 1;

    for (; number >= 10; number /= 10) {
        digits++;
    }
    return strlen("\r\n **=;") + 62 + digits + characters;
}

/* The header that grows most of those that are known, near the limit of a header.
 * A name of 62 leaves 1 character in part 0, 8 in part 1, which a letter of 6 has
 * alone; then each blank has 3: two in a part of up to three digits, which leave 8,
 * 7 and 6; one in all others. */
static void test_growth(void)
{
    bytes plain = bytes_of(PLAIN);
    text h = text_new(HENNELAKU_MAX_HEADER);
    size_t want = strlen("Content-Type:;") + line_len(0, strlen("UTF-8''b"))
        + line_len(1, strlen(E_HEX)) - 1 + 2;
    size_t blanks;
    size_t part;
    outcome o;

    text_add(&h, "Content-Type:;");
    text_fill(&h, 'n', 62);
    text_add(&h, "=\"b" E_ACUTE);
    text_fill(&h, ' ', HENNELAKU_MAX_LINE - h.len);
    blanks = HENNELAKU_MAX_LINE - strlen("Content-Type:;=\"b" E_ACUTE) - 62;
    while (h.room - h.len > 1000 + 5) {
        text_add(&h, "\r\n");
        text_fill(&h, ' ', HENNELAKU_MAX_LINE);
        blanks += HENNELAKU_MAX_LINE;
    }
    text_add(&h, "\r\n \"\r\n");
    blanks++;
    for (part = 2; blanks > 0; part++) {
        size_t held = part < 1000 && blanks >= 2 ? 2 : 1;

        want += line_len(part, 3 * held);
        blanks -= held;
    }
    o = call(HENNELAKU_CURRENT, AREA_BEFORE_PAGE, plain, text_bytes(&h),
             HENNELAKU_ENVELOPE_ROOM_MAX, HENNELAKU_HEADER_ROOM_MAX);
    expect_answer(&o, refusal(HENNELAKU_OK, HENNELAKU_NO_INPUT, 0, 0));
    if (o.answer.header_len != want || want <= 70 * h.len) {
        blame("%zu bytes grew to %zu, not %zu", h.len, o.answer.header_len,
              want);
    }
    outcome_free(&o);
    report("the parameter that grows most stays within the bounds");
    text_free(&h);
}

void test_parameters(void)
{
    test_full_parts();
    test_hundred_parts();
    test_no_room();
    test_no_room_later();
    test_long_ascii_name();
    test_growth();
}
