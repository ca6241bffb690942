/* Tests of the library through hennelaku.h. One line for each: ok or FAIL. */
#define _DEFAULT_SOURCE
#include <limits.h>
#include <pthread.h>
#include <stdio.h>
#include <stdlib.h>
#include <string.h>
#include <sys/mman.h>

#include "batch.h"
#include "cases.h"
#include "check.h"
#include "mailbox.h"
#include "offset.h"
#include "parameters.h"
#include "reader.h"
#include "setting.h"

#define WHOLE_ENVELOPE \
    "MAIL FROM:<" E_ACUTE "@example.org> ALT-ADDRESS=e+2Bx@example.org\r\n" RCPT
#define WHOLE_HEADER "Subject: " E_ACUTE "\r\nX-Note: ok\r\n"

static hennelaku_answer taken(void)
{
    return refusal(HENNELAKU_OK, HENNELAKU_NO_INPUT, 0, 0);
}

static void test_cases(void)
{
    size_t i;

    for (i = 0; i < case_count; i++) {
        expect_case(HENNELAKU_SPOOL, &cases[i]);
        report(cases[i].name);
    }
}

/* The paper's figures for the whole case. */
static void test_whole_case(void)
{
    bytes e = bytes_of(WHOLE_ENVELOPE);
    bytes h = bytes_of(WHOLE_HEADER);
    outcome o = call(HENNELAKU_SPOOL, AREA_GUARDED, e, h, 1000, 1000);

    expect_answer(&o, taken());
    if (o.answer.envelope_len != 54 || o.answer.header_len != 140) {
        blame("lengths %zu and %zu", o.answer.envelope_len,
              o.answer.header_len);
    }
    outcome_free(&o);
    report("whole case: lengths 54 and 140");
    expect_refusal(HENNELAKU_SPOOL, AREA_GUARDED, e, h, 54, 139,
                   no_header_room(140));
    report("whole case: header buffer of 139 is 8 at 140");
    expect_refusal(HENNELAKU_SPOOL, AREA_GUARDED, e, h, 53, 140,
                   no_envelope_room(54));
    report("whole case: envelope buffer of 53 is 7 at 54");
    expect_refusal(HENNELAKU_SPOOL, AREA_GUARDED, e, h, 53, 139,
                   no_envelope_room(54));
    report("whole case: both short is 7");
}

static void test_recipients(void)
{
    text e = recipients(HENNELAKU_MAX_RECIPIENTS);

    expect_output(HENNELAKU_SPOOL, AREA_EXACT, text_bytes(&e), bytes_of(""),
                  e.len, 0, text_bytes(&e), bytes_of(""));
    report("100 RCPT lines taken");
    text_free(&e);
}

/* Lines of 998 bytes come out whole. */
static void test_line_lengths(void)
{
    text h = text_new(2000);
    text e = text_new(2000);
    bytes plain = bytes_of(PLAIN);
    bytes none = bytes_of("");

    text_add(&h, "A: b\r\nX:");
    text_fill(&h, 'a', HENNELAKU_MAX_LINE - strlen("X:"));
    text_add(&h, "\r\n");
    text_add(&e, MAIL "RCPT TO:<b@x> A=");
    text_fill(&e, 'a', HENNELAKU_MAX_LINE - strlen("RCPT TO:<b@x> A="));
    text_add(&e, "\r\n");
    expect_output(HENNELAKU_SPOOL, AREA_EXACT, plain, text_bytes(&h),
                  plain.len, h.len, plain, text_bytes(&h));
    report("header line of 998 taken");
    expect_output(HENNELAKU_SPOOL, AREA_EXACT, text_bytes(&e), none, e.len, 0,
                  text_bytes(&e), none);
    report("envelope line of 998 taken");
    text_free(&h);
    text_free(&e);
}

/* A Received field whose first line, of so many bytes, a removed clause and
 * what follows it are on: whether it passed, and was not held. */
static int received_passed(size_t len, const char *after)
{
    text h = text_new(2000);
    outcome o;
    int passed;

    text_add(&h, "Received: ");
    text_fill(&h, 'a', len - h.len);
    text_add(&h, "\r\n for <" E_ACUTE "@x>");
    text_add(&h, after);
    text_add(&h, "\r\n");
    o = call(HENNELAKU_SPOOL, AREA_EXACT, bytes_of(PLAIN), text_bytes(&h), 100, 20000);
    passed = o.answer.number == HENNELAKU_OK;
    if (passed ? o.answer.header_len != len + strlen(after) + 2
               : o.answer.number != HENNELAKU_HELD) {
        blame("%u, %zu bytes", (unsigned)o.answer.number, o.answer.header_len);
    }
    outcome_free(&o);
    text_free(&h);
    return passed;
}

static void test_received_lines(void)
{
    if (!received_passed(HENNELAKU_MAX_LINE, "")
        || !received_passed(HENNELAKU_MAX_LINE - 1, ";")
        || received_passed(HENNELAKU_MAX_LINE, ";")) {
        blame("the limit is not 998 for a line of a Received field");
    }
    report("a line of 998 that a removed clause makes passes, of 999 it is held");
}

/* An address field that begins with a phrase word or an address of so many
 * bytes, itself begun by `front`: whether it was rewritten, and not
 * encapsulated. */
static int rewritten(const char *front, size_t len, const char *rest)
{
    text h = text_new(2000);
    outcome o;
    int fits;

    text_add(&h, "To:");
    text_add(&h, front);
    text_fill(&h, 'a', len - strlen(front));
    text_add(&h, rest);
    text_add(&h, "\r\n");
    o = call(HENNELAKU_SPOOL, AREA_EXACT, bytes_of(PLAIN), text_bytes(&h), 100,
             20000);
    expect_answer(&o, taken());
    fits = o.answer.header_len > 3 && memcmp(o.header.at, "To:", 3) == 0;
    outcome_free(&o);
    text_free(&h);
    return fits;
}

static void test_word_lengths(void)
{
    if (!rewritten("", 900, " " E_ACUTE " <a@x>")
        || rewritten("", 901, " " E_ACUTE " <a@x>")) {
        blame("the limit is not 900 for a word");
    }
    report("phrase word of 900 fits, of 901 does not");
    if (!rewritten(E_ACUTE "@", 900, "") || rewritten(E_ACUTE "@", 901, "")) {
        blame("the limit is not 900 for an address");
    }
    report("address of 900 fits, of 901 does not");
}

static void test_limits(void)
{
    text e = envelope_of(HENNELAKU_MAX_ENVELOPE);
    text h = header_of(HENNELAKU_MAX_HEADER);
    text e1 = envelope_of(HENNELAKU_MAX_ENVELOPE + 1);
    text h1 = header_of(HENNELAKU_MAX_HEADER + 1);

    expect_output(HENNELAKU_SPOOL, AREA_BEFORE_PAGE, text_bytes(&e),
                  text_bytes(&h), e.len, h.len, text_bytes(&e),
                  text_bytes(&h));
    report("inputs of 16384 and 32768 bytes taken");
    expect_refusal(HENNELAKU_SPOOL, AREA_BEFORE_PAGE, text_bytes(&e1),
                   text_bytes(&h), e1.len, h.len,
                   refusal(1, HENNELAKU_ENVELOPE, 0, 0));
    report("1: envelope of 16385 bytes");
    expect_refusal(HENNELAKU_SPOOL, AREA_BEFORE_PAGE, text_bytes(&e),
                   text_bytes(&h1), e.len, h1.len,
                   refusal(1, HENNELAKU_HEADER, 1, 0));
    report("1: header of 32769 bytes");
    expect_refusal(HENNELAKU_SPOOL, AREA_BEFORE_PAGE, text_bytes(&e1),
                   text_bytes(&h1), 0, 0,
                   refusal(1, HENNELAKU_ENVELOPE, 0, 0));
    report("order: 1 of the envelope before 1 of the header");
    expect_refusal(HENNELAKU_SPOOL, AREA_BEFORE_PAGE, bytes_of(""),
                   text_bytes(&h1), 0, 0, refusal(1, HENNELAKU_HEADER, 1, 0));
    report("order: 1 of the header before 2");
    text_free(&e);
    text_free(&h);
    text_free(&e1);
    text_free(&h1);
}

static void test_nul(void)
{
    static const uint8_t in_value[] = {'A', ':', 0, '\r', '\n'};
    static const uint8_t in_verb[] = {'M', 'A', 0, 'L', '\r', '\n'};
    bytes h = {in_value, sizeof in_value};
    bytes e = {in_verb, sizeof in_verb};

    expect_refusal(HENNELAKU_SPOOL, AREA_EXACT, bytes_of(PLAIN), h, 500, 500,
                   refusal(5, HENNELAKU_HEADER, 0, 2));
    report("5: NUL");
    expect_refusal(HENNELAKU_SPOOL, AREA_EXACT, e, bytes_of(""), 500, 500,
                   refusal(2, HENNELAKU_ENVELOPE, 0, 2));
    report("2: NUL");
}

static void expect_null(const char *name, hennelaku_answer a, uint32_t number,
                        uint32_t input, size_t place, size_t envelope_len)
{
    if (a.number != number || a.input != input || a.place != place
        || a.offset != 0 || a.envelope_len != envelope_len
        || a.header_len != 0) {
        blame("%u at %zu, byte %zu of input %u, lengths %zu and %zu",
              (unsigned)a.number, a.place, a.offset, (unsigned)a.input,
              a.envelope_len, a.header_len);
    }
    report(name);
}

static void test_null(void)
{
    bytes e = bytes_of(PLAIN);
    bytes h = bytes_of("A: b\r\n");
    uint8_t eb[100];
    uint8_t hb[100];

    expect_null("null envelope of length 0 is 2 at 0",
                hennelaku_downgrade(HENNELAKU_SPOOL, NULL, 0, h.at, h.len, eb,
                                    sizeof eb, hb, sizeof hb),
                2, HENNELAKU_ENVELOPE, 0, 0);
    expect_null("null header of length 0 is an empty header",
                hennelaku_downgrade(HENNELAKU_SPOOL, e.at, e.len, NULL, 0, eb,
                                    sizeof eb, hb, sizeof hb),
                0, HENNELAKU_NO_INPUT, 0, e.len);
    expect_null("null envelope buffer of length 0 is 7",
                hennelaku_downgrade(HENNELAKU_SPOOL, e.at, e.len, h.at, h.len,
                                    NULL, 0, hb, sizeof hb),
                7, HENNELAKU_ENVELOPE, e.len, 0);
    expect_null("null header buffer of length 0 is 8",
                hennelaku_downgrade(HENNELAKU_SPOOL, e.at, e.len, h.at, h.len,
                                    eb, sizeof eb, NULL, 0),
                8, HENNELAKU_HEADER, h.len, 0);
    expect_null("null header and header buffer of length 0",
                hennelaku_downgrade(HENNELAKU_SPOOL, e.at, e.len, NULL, 0, eb,
                                    sizeof eb, NULL, 0),
                0, HENNELAKU_NO_INPUT, 0, e.len);
    expect_null("four nulls are 2 at 0",
                hennelaku_downgrade(HENNELAKU_SPOOL, NULL, 0, NULL, 0, NULL, 0,
                                    NULL, 0),
                2, HENNELAKU_ENVELOPE, 0, 0);
}

/* Of headers without parameters the one that grows most of those that are known:
 * fields of 59 bytes with
 * eleven tiny addresses, each of them removed. An address and the comma after it
 * take 68 bytes: 28 and 12 besides its word, which is in Q, of 12 characters.
 * The original text has 35 bytes in B on the name's line, and in Q the 19 that
 * are left. */
#define GROWING_LEN 59
#define GROWN_LEN \
    (3 + 11 * 68 - 1 + 2 + 14 + 13 + 48 + 15 + 3 * 19 + 2)

static void test_bounds(void)
{
    text h = text_new(HENNELAKU_MAX_HEADER);
    size_t fields = 0;
    size_t i;
    outcome o;

    for (; h.room - h.len >= GROWING_LEN; fields++) {
        text_add(&h, "To:" E_ACUTE "@_");
        for (i = 0; i < 10; i++) {
            text_add(&h, "," E_ACUTE "@_");
        }
        text_add(&h, "\r\n");
    }
    o = call(HENNELAKU_SPOOL, AREA_BEFORE_PAGE, bytes_of(PLAIN),
             text_bytes(&h), HENNELAKU_ENVELOPE_ROOM_MAX,
             HENNELAKU_HEADER_ROOM_MAX);
    expect_answer(&o, taken());
    if (h.len != fields * GROWING_LEN
        || o.answer.header_len != fields * GROWN_LEN
        || o.answer.header_len <= 15 * h.len) {
        blame("%zu bytes grew to %zu", h.len, o.answer.header_len);
    }
    outcome_free(&o);
    report("the header without parameters that grows most stays within the bounds");
    text_free(&h);
}

/* A line of 998 bytes whose path is to be replaced. Its words are in Q, and B
 * holds no more of them: on the name's line one that ends so many letters after
 * the first six _, then words of 42 bytes in 62 characters. Each next character
 * has four bytes and fits in neither. */
static void add_replaced(text *t, const char *verb, size_t letters)
{
    size_t start = t->len;
    size_t end = 998 - strlen("@_> ALT-ADDRESS=_@_");

    text_add(t, verb);
    text_add(t, "______");
    text_fill(t, 'a', letters);
    while (end - (t->len - start) >= 42) {
        text_add(t, "\xF0\x9F\x98\x80______");
        text_fill(t, 'a', 32);
    }
    text_add(t, "\xF0\x9F\x98\x80______");
    text_fill(t, 'a', end - (t->len - start));
    text_add(t, "@_> ALT-ADDRESS=_@_\r\n");
}

/* Each field has 23 for its name, the colon and CRLF, or 21; 13 and its first
 * word; 22 words of 62; and a last word of 63, or 62. */
#define FIRST_FIELDS_LEN \
    (23 + 13 + 41 + 22 * 77 + 15 + 63 + 21 + 13 + 44 + 22 * 77 + 15 + 62)

static void test_first_fields(void)
{
    text e = text_new(2000);
    outcome o;

    add_replaced(&e, "MAIL FROM:<", 20);
    add_replaced(&e, "RCPT TO:<", 23);
    o = call(HENNELAKU_SPOOL, AREA_BEFORE_PAGE, text_bytes(&e), bytes_of(""),
             e.len, HENNELAKU_HEADER_ROOM_FOR(0));
    expect_answer(&o, taken());
    if (o.answer.header_len != FIRST_FIELDS_LEN) {
        blame("they have %zu bytes", o.answer.header_len);
    }
    outcome_free(&o);
    report("long new first fields stay within the bounds");
    text_free(&e);
}

/* Answers do not depend on the calls before. */
static void test_nothing_kept(void)
{
    size_t i;
    size_t j;

    for (i = 0; i < case_count; i += 5) {
        for (j = 0; j < case_count; j++) {
            outcome o = call(HENNELAKU_SPOOL, AREA_GUARDED,
                             bytes_of(cases[j].envelope),
                             bytes_of(cases[j].header), 1000, 1000);

            expect_answer(&o, cases[j].answer);
            outcome_free(&o);
            o = call(HENNELAKU_SPOOL, AREA_GUARDED,
                     bytes_of(cases[i].envelope), bytes_of(cases[i].header),
                     1000, 1000);
            expect_answer(&o, cases[i].answer);
            outcome_free(&o);
        }
    }
    report("nothing is kept between calls");
}

/* Every taken case over and over; counts the answers that are not right. */
static void *thread_main(void *bad)
{
    size_t *wrong_answers = bad;
    int turn;
    size_t i;

    for (turn = 0; turn < 300; turn++) {
        for (i = 0; i < case_count; i++) {
            uint8_t e[1000];
            uint8_t h[1000];
            bytes ei = bytes_of(cases[i].envelope);
            bytes hi = bytes_of(cases[i].header);
            hennelaku_answer a = hennelaku_downgrade(
                HENNELAKU_SPOOL, ei.at, ei.len, hi.at, hi.len, e, sizeof e, h,
                sizeof h);

            if (a.number != cases[i].answer.number
                || a.input != cases[i].answer.input
                || a.place != cases[i].answer.place
                || a.offset != cases[i].answer.offset) {
                ++*wrong_answers;
            } else if (a.number == HENNELAKU_OK
                       && (a.envelope_len != strlen(cases[i].envelope_out)
                           || a.header_len != strlen(cases[i].header_out)
                           || memcmp(e, cases[i].envelope_out, a.envelope_len)
                           || memcmp(h, cases[i].header_out, a.header_len))) {
                ++*wrong_answers;
            }
        }
    }
    return NULL;
}

static void test_threads(void)
{
    pthread_t other;
    size_t here = 0;
    size_t there = 0;

    if (pthread_create(&other, NULL, thread_main, &there) != 0) {
        blame("no thread");
    } else {
        thread_main(&here);
        pthread_join(other, NULL);
        if (here + there > 0) {
            blame("%zu and %zu wrong answers", here, there);
        }
    }
    report("two threads on distinct buffers");
}

/* A call on a thread of its own. */
typedef struct thread_call {
    bytes header;
    hennelaku_answer answer;
} thread_call;

static uint8_t thread_envelope[HENNELAKU_ENVELOPE_ROOM_MAX];
static uint8_t thread_header[HENNELAKU_HEADER_ROOM_MAX];

static void *call_main(void *argument)
{
    thread_call *c = argument;

    c->answer = hennelaku_downgrade(
        HENNELAKU_SPOOL, (const uint8_t *)PLAIN, strlen(PLAIN), c->header.at,
        c->header.len, thread_envelope, sizeof thread_envelope, thread_header,
        sizeof thread_header);
    return NULL;
}

/* The answer of a call on a thread that has HENNELAKU_STACK bytes of stack,
 * besides the least that any thread has, and below them a page that may not be
 * touched. */
static hennelaku_answer call_on_its_stack(bytes header)
{
    size_t page = 4096;
    size_t size = HENNELAKU_STACK + (size_t)PTHREAD_STACK_MIN;
    uint8_t *base = mmap(NULL, page + size, PROT_READ | PROT_WRITE,
                         MAP_PRIVATE | MAP_ANONYMOUS, -1, 0);
    thread_call c;
    pthread_attr_t attributes;
    pthread_t thread;

    memset(&c, 0, sizeof c);
    c.header = header;
    if (base == MAP_FAILED || mprotect(base, page, PROT_NONE) != 0
        || pthread_attr_init(&attributes) != 0
        || pthread_attr_setstack(&attributes, base + page, size) != 0
        || pthread_create(&thread, &attributes, call_main, &c) != 0
        || pthread_join(thread, NULL) != 0) {
        fputs("no thread for a test\n", stderr);
        exit(2);
    }
    pthread_attr_destroy(&attributes);
    munmap(base, page + size);
    return c.answer;
}

/* So many parentheses, with a fold before every 400th, or each with CRLF and a
 * space before it. */
static void text_nest(text *t, char parenthesis, size_t count)
{
    size_t i;

    for (i = 0; i < count; i++) {
        if (i % 400 == 399) {
            text_add(t, "\r\n ");
        }
        text_fill(t, parenthesis, 1);
    }
}

static void text_pieces(text *t, char parenthesis, size_t count)
{
    size_t i;

    for (i = 0; i < count; i++) {
        text_add(t, "\r\n ");
        text_fill(t, parenthesis, 1);
    }
}

/* A header in such a thread: a refusal, or what its output begins with or is. */
static void expect_nested(const char *name, text *header, uint32_t number,
                          const text *output, int whole)
{
    hennelaku_answer a = call_on_its_stack(text_bytes(header));

    if (a.number != number || a.place != 0) {
        blame("%u at %zu, not %u at 0", (unsigned)a.number, a.place,
              (unsigned)number);
    } else if (number == HENNELAKU_OK
               && (whole ? a.header_len != output->len
                         : a.header_len < output->len)) {
        blame("%zu bytes written", a.header_len);
    } else if (number == HENNELAKU_OK
               && memcmp(thread_header, output->at, output->len) != 0) {
        blame("other bytes written");
    }
    report(name);
    header->len = 0;
}

#define NESTED 16000
#define E_WORD "\r\n =?UTF-8?Q?=C3=A9?="

/* 32,000 parentheses, closed and unclosed, on the stack that a call needs. */
static void test_nesting(void)
{
    text h = text_new(HENNELAKU_MAX_HEADER);
    text o = text_new(HENNELAKU_HEADER_ROOM_MAX);

    text_add(&h, "Date: ");
    text_nest(&h, '(', NESTED);
    text_add(&h, E_ACUTE);
    text_nest(&h, ')', NESTED);
    text_add(&h, "\r\n");
    text_add(&o, "Date: ");
    text_nest(&o, '(', NESTED);
    text_add(&o, E_WORD "\r\n ");
    text_nest(&o, ')', NESTED);
    text_add(&o, "\r\n");
    expect_nested("Date with comments inside comments, 16,000 deep", &h,
                  HENNELAKU_OK, &o, 1);

    text_add(&h, "Date: " E_ACUTE);
    text_nest(&h, '(', 2 * NESTED);
    text_add(&h, "\r\n");
    expect_nested("Date with 32,000 unclosed parentheses", &h,
                  HENNELAKU_HELD, &o, 1);

    text_add(&h, "Date: (" E_ACUTE ")");
    text_nest(&h, '(', 2 * NESTED);
    text_add(&h, "\r\n");
    o.len = 0;
    text_add(&o, "Date: (" E_WORD "\r\n )");
    text_nest(&o, '(', 2 * NESTED);
    text_add(&o, "\r\n");
    expect_nested("Date with a comment before 32,000 unclosed parentheses", &h,
                  HENNELAKU_OK, &o, 1);

    text_add(&h, "Received: ");
    text_nest(&h, '(', NESTED);
    text_add(&h, E_ACUTE);
    text_nest(&h, ')', NESTED);
    text_add(&h, " for <" E_ACUTE "@x>\r\n");
    o.len = 0;
    text_add(&o, "Received: ");
    text_nest(&o, '(', NESTED);
    text_add(&o, E_WORD "\r\n ");
    text_nest(&o, ')', NESTED);
    text_add(&o, "\r\n");
    expect_nested("Received with comments inside comments, 16,000 deep", &h,
                  HENNELAKU_OK, &o, 1);

    text_add(&h, "Received: a for <" E_ACUTE "@x>");
    text_nest(&h, '(', 2 * NESTED);
    text_add(&h, "\r\n");
    o.len = 0;
    text_add(&o, "Received: a");
    text_nest(&o, '(', 2 * NESTED);
    text_add(&o, "\r\n");
    expect_nested("Received with 32,000 unclosed parentheses", &h,
                  HENNELAKU_OK, &o, 1);

    text_add(&h, "To: a@x ");
    text_nest(&h, '(', NESTED);
    text_add(&h, E_ACUTE);
    text_nest(&h, ')', NESTED);
    text_add(&h, "\r\n");
    o.len = 0;
    text_add(&o, "To:\r\n a@x");
    text_pieces(&o, '(', NESTED);
    text_add(&o, E_WORD);
    text_pieces(&o, ')', NESTED);
    text_add(&o, "\r\n");
    expect_nested("To with comments inside comments, 16,000 deep", &h,
                  HENNELAKU_OK, &o, 1);

    text_add(&h, "To: a@x " E_ACUTE);
    text_nest(&h, '(', 2 * NESTED);
    text_add(&h, "\r\n");
    o.len = 0;
    text_add(&o, "Downgraded-To:");
    expect_nested("To with 32,000 unclosed parentheses", &h, HENNELAKU_OK, &o,
                  0);
    free(h.at);
    free(o.at);
}

static void test_number_text(void)
{
    uint32_t i;
    uint32_t j;

    for (i = 0; i <= HENNELAKU_ALT_ADDRESS_RETIRED; i++) {
        if (strlen(hennelaku_number_text(i)) < 5) {
            blame("no words for %u", (unsigned)i);
        }
        for (j = 0; j < i; j++) {
            if (strcmp(hennelaku_number_text(i), hennelaku_number_text(j))
                == 0) {
                blame("the same words for %u and %u", (unsigned)i, (unsigned)j);
            }
        }
    }
    report("words for each number");
}

static void expect_reply(uint32_t number, uint32_t code, const char *enhanced)
{
    hennelaku_reply r = hennelaku_smtp_reply(number);
    const char *c;

    if (r.code != code || strcmp(r.enhanced, enhanced) != 0) {
        blame("%u is %u %s, not %u %s", (unsigned)number, (unsigned)r.code,
              r.enhanced, (unsigned)code, enhanced);
    }
    if (r.enhanced[0] != (char)('0' + r.code / 100)) {
        blame("the two codes of %u are of different classes",
              (unsigned)number);
    }
    for (c = r.text; *c != '\0'; c++) {
        if (*c < 32 || *c > 126) {
            blame("byte %d in the text for %u", *c, (unsigned)number);
        }
    }
    if (c - r.text < 10 || c - r.text > 100) {
        blame("%d bytes of text for %u", (int)(c - r.text), (unsigned)number);
    }
}

static void test_replies(void)
{
    expect_reply(0, 250, "2.0.0");
    expect_reply(1, 552, "5.3.4");
    expect_reply(2, 501, "5.5.4");
    expect_reply(3, 553, "5.6.7");
    expect_reply(4, 501, "5.5.4");
    expect_reply(5, 554, "5.6.0");
    expect_reply(6, 554, "5.6.9");
    expect_reply(7, 451, "4.3.1");
    expect_reply(8, 451, "4.3.1");
    expect_reply(9, 451, "4.3.0");
    expect_reply(10, 555, "5.5.4");
    expect_reply(11, 451, "4.3.0");
    expect_reply(4294967295u, 451, "4.3.0");
    report("SMTP reply for each number");
}

static void test_version(void)
{
    char dotted[40];

    sprintf(dotted, "%d.%d.%d", HENNELAKU_VERSION_MAJOR,
            HENNELAKU_VERSION_MINOR, HENNELAKU_VERSION_PATCH);
    if (strcmp(dotted, HENNELAKU_VERSION_TEXT) != 0) {
        blame("the numbers say %s, the text " HENNELAKU_VERSION_TEXT, dotted);
    }
    if (hennelaku_version() != HENNELAKU_VERSION) {
        blame("the library is %u, its header %d",
              (unsigned)hennelaku_version(), HENNELAKU_VERSION);
    }
    if (HENNELAKU_VERSION != 400) {
        blame("0.4.0 is %d, not 400", HENNELAKU_VERSION);
    }
    report("version 0.4.0 of header and library");
}

static uint32_t next_random(uint32_t *state)
{
    *state = *state * 1664525u + 1013904223u;
    return *state >> 16;
}

/* Copies of the cases with some bytes changed, dropped or doubled: what holds
 * of every call must hold, and buffers of just the size and one byte short
 * must fit together. */
static text mangled(const char *from, uint32_t *state)
{
    text t = text_new(2 * strlen(from) + 2);
    uint32_t rate = 1 + next_random(state) % 60;

    for (; *from != '\0'; from++) {
        uint32_t r = next_random(state) % (16 * rate);

        if (r == 0) {
            text_fill(&t, (char)next_random(state), 1);
        } else if (r == 1) {
            text_fill(&t, *from, 2);
        } else if (r != 2) {
            text_fill(&t, *from, 1);
        }
    }
    return t;
}

static void run_mangled(uint64_t setting, bytes e, bytes h, uint32_t *passed,
                        uint32_t *refused)
{
    outcome o = call(setting, AREA_GUARDED, e, h, e.len,
                     HENNELAKU_HEADER_ROOM_FOR(h.len));
    hennelaku_answer a = o.answer;

    expect_answer(&o, a);
    if (a.number == HENNELAKU_ENVELOPE_ROOM
        || a.number == HENNELAKU_HEADER_ROOM) {
        blame("%u in spite of ample room", (unsigned)a.number);
    } else if (a.number != HENNELAKU_OK) {
        ++*refused;
        expect_same_when_cut(setting, e, h, a);
    } else {
        bytes eo = {o.envelope.at, a.envelope_len};
        bytes ho = {o.header.at, a.header_len};

        ++*passed;
        expect_output(setting, AREA_EXACT, e, h, eo.len, ho.len, eo, ho);
        expect_refusal(setting, AREA_EXACT, e, h, eo.len - 1, ho.len,
                       no_envelope_room(eo.len));
        if (ho.len > 0) {
            expect_refusal(setting, AREA_EXACT, e, h, eo.len, ho.len - 1,
                           no_header_room(ho.len));
        }
    }
    outcome_free(&o);
}

static void test_mangled(void)
{
    uint32_t state = 5504;
    uint32_t passed = 0;
    uint32_t refused = 0;
    size_t i;
    int turn;

    for (turn = 0; turn < 100; turn++) {
        for (i = 0; i < case_count; i++) {
            text e = mangled(cases[i].envelope, &state);
            text h = mangled(cases[i].header, &state);

            run_mangled(turn % 2 == 0 ? HENNELAKU_SPOOL : HENNELAKU_CURRENT,
                        text_bytes(&e), text_bytes(&h), &passed, &refused);
            text_free(&e);
            text_free(&h);
        }
    }
    if (passed < 500 || refused < 500) {
        blame("only %u taken and %u refused", (unsigned)passed,
              (unsigned)refused);
    }
    report("mangled cases");
}

int main(void)
{
    test_whole_case();
    test_cases();
    test_offsets();
    test_settings();
    test_batches();
    test_mailbox();
    test_reader();
    test_recipients();
    test_line_lengths();
    test_word_lengths();
    test_limits();
    test_nul();
    test_null();
    test_bounds();
    test_parameters();
    test_first_fields();
    test_received_lines();
    test_nothing_kept();
    test_threads();
    test_nesting();
    test_number_text();
    test_replies();
    test_version();
    test_mangled();
    return failed_tests() == 0 ? 0 : 1;
}
