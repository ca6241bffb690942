#include "offset.h"

#include <stdio.h>
#include <string.h>

#include "cases.h"

#define GRIN "\xF0\x9F\x98\x80"

/* Where a line of an input starts; its end where it has no such line. */
static size_t line_start(bytes input, size_t line)
{
    size_t at = 0;

    while (line > 0 && at < input.len) {
        if (at > 0 && input.at[at - 1] == '\r' && input.at[at] == '\n') {
            line--;
        }
        at++;
    }
    return at;
}

static bytes input_of(bytes envelope, bytes header, hennelaku_answer a)
{
    return a.input == HENNELAKU_ENVELOPE ? envelope : header;
}

void expect_same_when_cut(uint64_t setting, bytes envelope, bytes header,
                          hennelaku_answer a)
{
    bytes input = input_of(envelope, header, a);
    size_t start = line_start(input, a.place);
    size_t cut = a.offset > start + 2 ? a.offset - 2 : start + 1;

    if (a.number != HENNELAKU_ENVELOPE_LINE
        && a.number != HENNELAKU_HEADER_LINE) {
        return;
    }
    for (; cut <= input.len && cut <= a.offset + 2; cut++) {
        bytes front = {input.at, cut};
        hennelaku_answer want = a;

        want.offset = cut < a.offset ? cut : a.offset;
        expect_refusal(setting, AREA_GUARDED,
                       a.input == HENNELAKU_ENVELOPE ? front : envelope,
                       a.input == HENNELAKU_ENVELOPE ? header : front, 500,
                       500, want);
    }
}

/* ---- the definition, by a search over what may follow */

/* What may complete a character that is cut short. */
static const char *const characters[] = {
    "", "\x80", "\x80\x80", "\xA0\x80", "\x80\x80\x80", "\x90\x80\x80"
};

/* What may complete a line then: from some byte of these on. */
static const char *const rests[] = {
    "MAIL FROM:<x@x>", "RCPT TO:<x@x>", "\"@x>", "x\"@x>", "]>", "=x", "x:"
};

#define COUNT(array) (sizeof(array) / sizeof(array)[0])

/* Whether a call finds no fault in the line of an answer, where its input is
 * this one. */
static int is_well_formed(bytes envelope, bytes header, hennelaku_answer a,
                          const text *input)
{
    uint8_t none[1];
    hennelaku_answer got;

    if (a.input == HENNELAKU_ENVELOPE) {
        envelope = text_bytes(input);
    } else {
        header = text_bytes(input);
    }
    got = hennelaku_downgrade(HENNELAKU_SPOOL, envelope.at, envelope.len,
                              header.at, header.len, none, 0, none, 0);
    return got.number != a.number || got.place != a.place;
}

/* Whether the first `len` bytes of an input end in a beginning of a well-formed
 * line. After a CR only LF can complete it. */
static int is_beginning(bytes envelope, bytes header, hennelaku_answer a,
                        size_t len)
{
    bytes input = input_of(envelope, header, a);
    const char *end = input.at[len - 1] == '\r' ? "\n" : "\r\n";
    text t = text_new(len + 40);
    int found = 0;
    size_t i;
    size_t j;
    size_t at;

    memcpy(t.at, input.at, len);
    for (i = 0; i < COUNT(rests); i++) {
        for (at = 0; at <= strlen(rests[i]); at++) {
            for (j = 0; j < COUNT(characters) && !found; j++) {
                t.len = len;
                text_add(&t, characters[j]);
                text_add(&t, rests[i] + at);
                text_add(&t, end);
                found = is_well_formed(envelope, header, a, &t);
            }
        }
    }
    text_free(&t);
    return found;
}

/* For 2 and 5 "the first byte at which .. the line, its CRLF with it, stops
 * being a beginning of any well-formed line at that number". */
static void expect_first_bad(bytes envelope, bytes header, hennelaku_answer a)
{
    bytes input = input_of(envelope, header, a);

    if (a.number != HENNELAKU_ENVELOPE_LINE
        && a.number != HENNELAKU_HEADER_LINE) {
        return;
    }
    if (a.offset > line_start(input, a.place)
        && !is_beginning(envelope, header, a, a.offset)) {
        blame("no well-formed line begins with the bytes before %zu",
              a.offset);
    }
    if (a.offset < input.len
        && is_beginning(envelope, header, a, a.offset + 1)) {
        blame("a well-formed line begins with the bytes up to %zu", a.offset);
    }
}

/* By what the table says, not by what a call answers. */
static void test_search(void)
{
    size_t i;
    char name[200];

    for (i = 0; i < case_count; i++) {
        bytes e = bytes_of(cases[i].envelope);
        bytes h = bytes_of(cases[i].header);
        hennelaku_answer a = cases[i].answer;

        if (a.number == HENNELAKU_ENVELOPE_LINE
            || a.number == HENNELAKU_HEADER_LINE) {
            expect_first_bad(e, h, a);
            expect_same_when_cut(HENNELAKU_SPOOL, e, h, a);
            snprintf(name, sizeof name, "%s, by search", cases[i].name);
            report(name);
        }
    }
}

/* ---- the limit of 998 */

/* A line: front, so many letters a, rest, CRLF. */
typedef struct limit_case {
    const char *name;
    const char *front;
    size_t letters;
    const char *rest;
    uint32_t number;
    size_t at;  /* the byte that is told, from the line's start */
} limit_case;

#define ALT "RCPT TO:<" E_ACUTE "@x> ALT-ADDRESS=e@x A="  /* 33 bytes */

static const limit_case mail_limits[] = {
    {"@x> as bytes 995 to 997", "MAIL FROM:<", 984, "@x>", 0, 0},
    {"no room for @x>", "MAIL FROM:<", 985, "@x>", 2, 995},
    {"no room for @x>, far longer", "MAIL FROM:<", 1100, "@x>", 2, 995},
};

static const limit_case rcpt_limits[] = {
    {"> as byte 997", "RCPT TO:<b@", 986, ">", 0, 0},
    {"no room for >", "RCPT TO:<b@", 987, ">", 2, 997},
    {"dot as byte 993", "RCPT TO:<", 984, ".c@x>", 0, 0},
    {"dot as byte 994", "RCPT TO:<", 985, ".c@x>", 2, 994},
    {"quoted string that ends at byte 994", "RCPT TO:<\"", 984, "\"@x>", 0, 0},
    {"no room for its end", "RCPT TO:<\"", 985, "\"@x>", 2, 994},
    {"backslash as byte 992", "RCPT TO:<\"", 982, "\\b\"@x>", 0, 0},
    {"backslash as byte 993", "RCPT TO:<\"", 983, "\\b\"@x>", 2, 993},
    {"domain literal that ends at byte 996", "RCPT TO:<b@[", 984, "]>", 0, 0},
    {"no room for its end", "RCPT TO:<b@[", 985, "]>", 2, 996},
    {"two bytes of a path from 993", "RCPT TO:<", 984, E_ACUTE "@x>", 3, 9},
    {"two bytes of a path from 994", "RCPT TO:<", 985, E_ACUTE "@x>", 2, 994},

    {"value of 998 bytes' line", "RCPT TO:<b@x> A=", 982, "", 0, 0},
    {"value of 999 bytes' line", "RCPT TO:<b@x> A=", 983, "", 2, 998},
    {"keyword of 998 bytes' line", "RCPT TO:<b@x> ", 984, "", 0, 0},
    {"keyword of 999 bytes' line", "RCPT TO:<b@x> ", 985, "", 2, 998},
    {"space as byte 996", "RCPT TO:<b@x> ", 982, " A", 0, 0},
    {"space as byte 997", "RCPT TO:<b@x> ", 983, " A", 2, 997},
    {"space as byte 997 and no more", "RCPT TO:<b@x> ", 983, " ", 2, 997},
    {"space as byte 998", "RCPT TO:<b@x> ", 984, " A", 2, 998},
    {"= as byte 996", "RCPT TO:<b@x> ", 982, "=b", 0, 0},
    {"= as byte 997", "RCPT TO:<b@x> ", 983, "=b", 2, 997},
    {"two bytes of an ORCPT from 996", "RCPT TO:<b@x> ORCPT=", 976, E_ACUTE,
     6, 996},
    {"two bytes of an ORCPT from 997", "RCPT TO:<b@x> ORCPT=", 977, E_ACUTE,
     2, 997},

    {"ALT-ADDRESS with its value to byte 997", "RCPT TO:<b@x> A=", 968,
     " ALT-ADDRESS=b", 4, 997},
    {"ALT-ADDRESS and no room for its value", "RCPT TO:<b@x> A=", 969,
     " ALT-ADDRESS=b", 2, 997},
    {"ALT-ADDRESS and room for X", "RCPT TO:<b@x> A=", 969, " ALT-ADDRESSX",
     0, 0},
    {"ALT-ADDRESS and no room", "RCPT TO:<b@x> A=", 970, " ALT-ADDRESSX", 2,
     997},
    {"second ALT-ADDRESS and room for X", ALT, 952, " ALT-ADDRESS=b", 2, 997},
    {"second ALT-ADDRESS, X as byte 997", ALT, 952, " ALT-ADDRESSX", 0, 0},
    {"second ALT-ADDRESS and no room", ALT, 953, " ALT-ADDRESS", 2, 997},
    {"second ALT-ADDRESS and no room for X", ALT, 953, " ALT-ADDRESSX", 2,
     997},
};

static const limit_case header_limits[] = {
    {"line of 998", "X:", 996, "", 0, 0},
    {"line of 999", "X:", 997, "", 5, 998},
    {"line of 2000", "X:", 1998, "", 5, 998},
    {"continuation of 998", " ", 997, "", 0, 0},
    {"continuation of 999", " ", 998, "", 5, 998},
    {"space as byte 997", "X:", 995, " ", 0, 0},
    {"space as byte 998", "X:", 996, " ", 5, 998},
    {"CR as byte 998, then b", "X:", 996, "\rb", 5, 999},
    {"CR as byte 999", "X:", 997, "\rb", 5, 998},
    {"two bytes from 996", "X:", 994, E_ACUTE, 0, 0},
    {"two bytes from 997", "X:", 995, E_ACUTE, 5, 997},
    {"three bytes from 995", "X:", 993, "\xE2\x82\xAC", 0, 0},
    {"three bytes from 996", "X:", 994, "\xE2\x82\xAC", 5, 996},
    {"four bytes from 994", "X:", 992, GRIN, 0, 0},
    {"four bytes from 995", "X:", 993, GRIN, 5, 995},
    {"four bytes from 996", "X:", 994, GRIN, 5, 996},
    {"four bytes from 997", "X:", 995, GRIN, 5, 997},
};

/* The cases of one table: line `line` of an input, between what stands before
 * and after it. */
static void run_limits(const limit_case *limits, size_t count, uint32_t input,
                       size_t line, const char *before, const char *after)
{
    char name[200];
    size_t i;

    for (i = 0; i < count; i++) {
        const limit_case *l = &limits[i];
        text t = text_new(4000);
        bytes e = bytes_of(PLAIN);
        bytes h = bytes_of("");
        hennelaku_answer want = refusal(l->number, input, line,
                                        strlen(before) + l->at);
        outcome o;

        text_add(&t, before);
        text_add(&t, l->front);
        text_fill(&t, 'a', l->letters);
        text_add(&t, l->rest);
        text_add(&t, "\r\n");
        text_add(&t, after);
        if (input == HENNELAKU_ENVELOPE) {
            e = text_bytes(&t);
        } else {
            h = text_bytes(&t);
        }
        if (l->number == HENNELAKU_OK) {
            want = refusal(HENNELAKU_OK, HENNELAKU_NO_INPUT, 0, 0);
        }
        o = call(HENNELAKU_SPOOL, AREA_EXACT, e, h, 4000, 16000);
        expect_first_bad(e, h, want);
        expect_answer(&o, want);
        expect_same_when_cut(HENNELAKU_SPOOL, e, h, want);
        outcome_free(&o);
        text_free(&t);
        snprintf(name, sizeof name, "limit of %s line %zu: %s",
                 input == HENNELAKU_ENVELOPE ? "envelope" : "header", line,
                 l->name);
        report(name);
    }
}

/* ---- inputs that are as long as they may be */

static void test_longest(void)
{
    text e = text_new(HENNELAKU_MAX_ENVELOPE);
    text h = text_new(HENNELAKU_MAX_HEADER);
    text lines = envelope_of(16000);
    size_t place = 0;
    size_t i;

    memcpy(e.at, lines.at, lines.len);
    e.len = lines.len;
    for (i = 0; i < lines.len; i++) {
        place += lines.at[i] == '\n';
    }
    text_add(&e, "RCPT TO:<b@x> A=");
    text_fill(&e, 'a', e.room - e.len);
    expect_refusal(HENNELAKU_SPOOL, AREA_BEFORE_PAGE, text_bytes(&e),
                   bytes_of(""), 0, 0,
                   refusal(2, HENNELAKU_ENVELOPE, place, e.len));
    report("2 at the end of 16384 bytes");
    text_free(&lines);

    lines = header_of(32000);
    memcpy(h.at, lines.at, lines.len);
    h.len = lines.len;
    for (i = 0, place = 0; i < lines.len; i++) {
        place += lines.at[i] == '\n';
    }
    text_fill(&h, 'X', 1);
    text_fill(&h, ':', 1);
    text_fill(&h, 'a', h.room - h.len);
    expect_refusal(HENNELAKU_SPOOL, AREA_BEFORE_PAGE, bytes_of(PLAIN),
                   text_bytes(&h), 0, 0,
                   refusal(5, HENNELAKU_HEADER, place, h.len));
    report("5 at the end of 32768 bytes");
    text_free(&lines);
    text_free(&e);
    text_free(&h);
}

/* ---- the number of lines */

/* What stands on line 101, if any: no line is well formed there. */
static void test_line_101(void)
{
    static const char *const lines[] = {
        RCPT, "\r\n", "RCPT", "R", "\r", "\n", ("\r\n" RCPT)
    };
    char name[200];
    size_t i;

    for (i = 0; i < COUNT(lines); i++) {
        text e = recipients(HENNELAKU_MAX_RECIPIENTS);
        hennelaku_answer want = refusal(2, HENNELAKU_ENVELOPE, 101, e.len);

        text_add(&e, lines[i]);
        expect_first_bad(text_bytes(&e), bytes_of(""), want);
        expect_refusal(HENNELAKU_SPOOL, AREA_EXACT, text_bytes(&e),
                       bytes_of(""), 0, 0, want);
        expect_same_when_cut(HENNELAKU_SPOOL, text_bytes(&e), bytes_of(""),
                             want);
        text_free(&e);
        snprintf(name, sizeof name, "101 RCPT lines are 2 at 101: %zu", i);
        report(name);
    }
}

/* Line 100 is like the others. */
static void test_line_100(void)
{
    text e = recipients(HENNELAKU_MAX_RECIPIENTS);
    hennelaku_answer want = refusal(2, HENNELAKU_ENVELOPE, 100, e.len - 3);

    e.at[e.len - 3] = ' ';
    expect_first_bad(text_bytes(&e), bytes_of(""), want);
    expect_refusal(HENNELAKU_SPOOL, AREA_EXACT, text_bytes(&e), bytes_of(""),
                   0, 0, want);
    report("the 100th RCPT line malformed is 2 at 100");
    text_free(&e);
}

void test_offsets(void)
{
    test_search();
    run_limits(mail_limits, COUNT(mail_limits), HENNELAKU_ENVELOPE, 0, "",
               RCPT);
    run_limits(rcpt_limits, COUNT(rcpt_limits), HENNELAKU_ENVELOPE, 2, PLAIN,
               "");
    run_limits(header_limits, COUNT(header_limits), HENNELAKU_HEADER, 1,
               "A: b\r\n", "");
    test_longest();
    test_line_100();
    test_line_101();
}
