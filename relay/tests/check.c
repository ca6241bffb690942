#include "check.h"

#include <stdarg.h>
#include <stdio.h>
#include <stdlib.h>
#include <string.h>

static int failures = 0;

/* What is wrong in the current test, or empty. */
static char wrong[400];

void blame(const char *format, ...)
{
    va_list args;

    if (wrong[0] != '\0') {
        return;
    }
    va_start(args, format);
    vsnprintf(wrong, sizeof wrong, format, args);
    va_end(args);
}

void report(const char *name)
{
    if (wrong[0] == '\0') {
        printf("ok %s\n", name);
    } else {
        printf("FAIL %s: %s\n", name, wrong);
        failures++;
    }
    wrong[0] = '\0';
    fflush(stdout);
}

int failed_tests(void)
{
    return failures;
}

hennelaku_answer refusal(uint32_t number, uint32_t input, size_t place,
                         size_t offset)
{
    hennelaku_answer a = {number, input, place, offset, 0, 0};

    return a;
}

void expect_answer(const outcome *o, hennelaku_answer want)
{
    hennelaku_answer a = o->answer;

    if (a.number != want.number || a.input != want.input
        || a.place != want.place || a.offset != want.offset) {
        blame("%u at %zu, byte %zu of input %u; not %u at %zu, byte %zu of "
              "input %u", (unsigned)a.number, a.place, a.offset,
              (unsigned)a.input, (unsigned)want.number, want.place,
              want.offset, (unsigned)want.input);
    }
    if (o->broken != NULL) {
        blame("%s", o->broken);
    }
}

static void expect_bytes(const char *part, const area *got, size_t got_len,
                         bytes want)
{
    size_t i;

    for (i = 0; i < got_len && i < want.len; i++) {
        if (got->at[i] != want.at[i]) {
            blame("outgoing %s differs at byte %zu", part, i);
            return;
        }
    }
    if (got_len != want.len) {
        blame("outgoing %s has %zu bytes, not %zu", part, got_len, want.len);
    }
}

void expect_refusal(uint64_t setting, area_kind kind, bytes envelope,
                    bytes header, size_t envelope_room, size_t header_room,
                    hennelaku_answer want)
{
    outcome o = call(setting, kind, envelope, header, envelope_room,
                     header_room);

    expect_answer(&o, want);
    outcome_free(&o);
}

void expect_output(uint64_t setting, area_kind kind, bytes envelope,
                   bytes header, size_t envelope_room, size_t header_room,
                   bytes envelope_out, bytes header_out)
{
    outcome o = call(setting, kind, envelope, header, envelope_room,
                     header_room);

    expect_answer(&o, refusal(HENNELAKU_OK, HENNELAKU_NO_INPUT, 0, 0));
    expect_bytes("envelope", &o.envelope, o.answer.envelope_len, envelope_out);
    expect_bytes("header", &o.header, o.answer.header_len, header_out);
    outcome_free(&o);
}

hennelaku_answer no_envelope_room(size_t needed)
{
    return refusal(HENNELAKU_ENVELOPE_ROOM, HENNELAKU_ENVELOPE, needed, 0);
}

hennelaku_answer no_header_room(size_t needed)
{
    return refusal(HENNELAKU_HEADER_ROOM, HENNELAKU_HEADER, needed, 0);
}

/* A case that is taken: with ample buffers, with buffers of just the size, and
 * with one or both a byte short or empty. */
static void run_taken(uint64_t setting, const test_case *t, area_kind kind)
{
    bytes e = bytes_of(t->envelope);
    bytes h = bytes_of(t->header);
    bytes eo = bytes_of(t->envelope_out);
    bytes ho = bytes_of(t->header_out);

    expect_output(setting, kind, e, h, eo.len + 100, ho.len + 100, eo, ho);
    expect_output(setting, kind, e, h, eo.len, ho.len, eo, ho);
    expect_refusal(setting, kind, e, h, eo.len - 1, ho.len,
                   no_envelope_room(eo.len));
    expect_refusal(setting, kind, e, h, 0, ho.len, no_envelope_room(eo.len));
    if (ho.len > 0) {
        expect_refusal(setting, kind, e, h, eo.len, ho.len - 1,
                       no_header_room(ho.len));
        expect_refusal(setting, kind, e, h, eo.len, 0, no_header_room(ho.len));
        expect_refusal(setting, kind, e, h, eo.len - 1, ho.len - 1,
                       no_envelope_room(eo.len));
        expect_refusal(setting, kind, e, h, 0, 0, no_envelope_room(eo.len));
    }
}

/* A case that is refused: with ample buffers, and with none, since 7 and 8
 * come last. */
static void run_refused(uint64_t setting, const test_case *t,
                        area_kind kind)
{
    bytes e = bytes_of(t->envelope);
    bytes h = bytes_of(t->header);

    expect_refusal(setting, kind, e, h, 500, 500, t->answer);
    expect_refusal(setting, kind, e, h, 0, 0, t->answer);
}

void expect_case(uint64_t setting, const test_case *t)
{
    int kind;

    for (kind = 0; kind < AREA_KINDS; kind++) {
        if (t->answer.number == HENNELAKU_OK) {
            run_taken(setting, t, (area_kind)kind);
        } else {
            run_refused(setting, t, (area_kind)kind);
        }
    }
}

text text_new(size_t room)
{
    text t = {malloc(room), 0, room};

    if (t.at == NULL) {
        fputs("no memory for a test\n", stderr);
        exit(2);
    }
    return t;
}

void text_free(text *t)
{
    free(t->at);
    t->at = NULL;
}

bytes text_bytes(const text *t)
{
    bytes b = {t->at, t->len};

    return b;
}

/* Room for so many bytes more. */
static uint8_t *text_end(text *t, size_t count)
{
    uint8_t *end = t->at + t->len;

    if (count > t->room - t->len) {
        fputs("a test's input is longer than its room\n", stderr);
        exit(2);
    }
    t->len += count;
    return end;
}

void text_add(text *t, const char *what)
{
    size_t len = strlen(what);

    memcpy(text_end(t, len), what, len);
}

void text_fill(text *t, char byte, size_t count)
{
    memset(text_end(t, count), byte, count);
}

text recipients(size_t count)
{
    text t = text_new(8192);
    size_t i;

    text_add(&t, MAIL);
    for (i = 0; i < count; i++) {
        text_add(&t, RCPT);
    }
    return t;
}

/* Lines that begin so, until a text has exactly so many bytes; at least 20 are
 * left. */
static void text_lines(text *t, size_t len, const char *start)
{
    size_t taken = strlen(start) + 2;

    while (t->len < len) {
        size_t left = len - t->len;
        size_t line = left > 1000 + 20 ? 1000 : left > 1000 ? 500 : left;

        text_add(t, start);
        text_fill(t, 'a', line - taken);
        text_add(t, "\r\n");
    }
}

text header_of(size_t len)
{
    text t = text_new(len);

    text_lines(&t, len, "X:");
    return t;
}

text envelope_of(size_t len)
{
    text t = text_new(len);

    text_add(&t, MAIL);
    text_lines(&t, len, "RCPT TO:<b@x> A=");
    return t;
}
