#include "batch.h"

#include <errno.h>
#include <stdio.h>
#include <stdlib.h>
#include <string.h>

#include "check.h"

/* Numbers of a record. */
#define NUMBERS HENNELAKU_RECORD_SIZE

/* Numbers of the longest batch here, its last part with it. */
#define MAX_NUMBERS (60 * NUMBERS)

/* What is handed to a call. */
typedef struct batch {
    uint64_t setting;
    bytes input;
    uint32_t numbers[MAX_NUMBERS];
    size_t count;
    size_t envelope_room;
    size_t header_room;
} batch;

/* What a call left. */
typedef struct left {
    area input;
    area records;
    area envelope;
    area header;
} left;

static left call_batch(area_kind kind, const batch *b)
{
    left l;

    l.input = area_of(kind, b->input.at, b->input.len);
    l.records = area_of(kind, (const uint8_t *)b->numbers,
                        b->count * sizeof(uint32_t));
    l.envelope = area_new(kind, b->envelope_room);
    l.header = area_new(kind, b->header_room);
    errno = 12345;
    hennelaku_downgrade_batch(b->setting, l.input.at, l.input.len,
                              (uint32_t *)(void *)l.records.at, b->count,
                              l.envelope.at, b->envelope_room,
                              l.header.at, b->header_room);
    if (errno != 12345) {
        blame("errno changed");
    }
    if (!area_untouched(&l.input, l.input.len)
        || !area_untouched(&l.records, l.records.len)
        || !area_untouched(&l.envelope, l.envelope.len)
        || !area_untouched(&l.header, l.header.len)) {
        blame("a byte beside an array changed");
    }
    if (l.input.len > 0
        && memcmp(l.input.at, b->input.at, l.input.len) != 0) {
        blame("the input changed");
    }
    return l;
}

static void left_free(left *l)
{
    area_free(&l->input);
    area_free(&l->records);
    area_free(&l->envelope);
    area_free(&l->header);
}

static uint32_t number_at(const left *l, size_t at)
{
    uint32_t number;

    memcpy(&number, l->records.at + at * sizeof number, sizeof number);
    return number;
}

static void expect_numbers(const left *l, size_t at, const uint32_t *want,
                           size_t count)
{
    size_t i;

    for (i = 0; i < count; i++) {
        if (number_at(l, at + i) != want[i]) {
            blame("record %zu: number %zu of it is %u, not %u",
                  (at + i) / NUMBERS, (at + i) % NUMBERS,
                  (unsigned)number_at(l, at + i), (unsigned)want[i]);
        }
    }
}

/* ---- the definition, by single calls */

static int is_within(uint32_t start, uint32_t len, size_t end)
{
    return (uint64_t)start + len <= end;
}

/* The answer for one record: a single call into the rest of two buffers. */
static hennelaku_answer answer_one(const batch *b, const uint32_t *record,
                                   const area *envelope, size_t envelope_used,
                                   const area *header, size_t header_used)
{
    if (!is_within(record[0], record[1], b->input.len)
        || !is_within(record[2], record[3], b->input.len)) {
        return refusal(HENNELAKU_RANGE, HENNELAKU_NO_INPUT, 0, 0);
    }
    return hennelaku_downgrade(
        b->setting, b->input.at + record[0], record[1],
        b->input.at + record[2], record[3],
        envelope->at + envelope_used, envelope->len - envelope_used,
        header->at + header_used, header->len - header_used);
}

/* A batch against single calls. Counts the answers by their numbers. */
static void expect_by_single_calls(area_kind kind, const batch *b,
                                   size_t *seen)
{
    left l = call_batch(kind, b);
    area envelope = area_new(AREA_EXACT, b->envelope_room);
    area header = area_new(AREA_EXACT, b->header_room);
    size_t envelope_used = 0;
    size_t header_used = 0;
    size_t at;

    for (at = 0; at + NUMBERS <= b->count; at += NUMBERS) {
        hennelaku_answer a = answer_one(b, b->numbers + at, &envelope,
                                        envelope_used, &header, header_used);
        uint32_t five[5];

        five[0] = a.number;
        five[1] = (uint32_t)a.place;
        five[2] = (uint32_t)a.offset;
        five[3] = (uint32_t)a.envelope_len;
        five[4] = (uint32_t)a.header_len;
        expect_numbers(&l, at, b->numbers + at, 4);
        expect_numbers(&l, at + 4, five, 5);
        envelope_used += a.envelope_len;
        header_used += a.header_len;
        seen[a.number]++;
    }
    expect_numbers(&l, at, b->numbers + at, b->count - at);
    if (memcmp(l.envelope.at, envelope.at, envelope.len) != 0
        || memcmp(l.header.at, header.at, header.len) != 0) {
        blame("other bytes than by single calls");
    }
    area_free(&envelope);
    area_free(&header);
    left_free(&l);
}

/* ---- worked batches */

#define PAIR "MAIL FROM:<a@x>\r\nRCPT TO:<b@x>\r\n"
#define RETIRED "MAIL FROM:<a@x> ALT-ADDRESS=b@x\r\n"
#define NOTE "X: b\r\n"
#define SUBJECT_OUT "Subject: =?UTF-8?Q?=C3=A9?=\r\n"

/* The input of all of them, and where its parts are: an envelope at 0, headers
 * at 32 and 38, an envelope with an ALT-ADDRESS at 51, the end at 84. */
#define INPUT PAIR NOTE "Subject: " E_ACUTE "\r\n" RETIRED
#define PAIR_AT 0, 32
#define NOTE_AT 32, 6
#define SUBJECT_AT 38, 13
#define RETIRED_AT 51, 33
#define END 84

/* Values of the five numbers before a call, and a last part. */
#define OLD 1, 2, 3, 4, 5
#define REST 4000000000u

typedef struct worked {
    const char *name;
    uint64_t setting;
    size_t envelope_room;
    size_t header_room;
    size_t count;                 /* numbers */
    uint32_t before[5 * NUMBERS];
    uint32_t after[5 * NUMBERS];
    const char *envelope_out;
    const char *header_out;
} worked;

static const worked batches[] = {
    {"batch: no records", 0, 10, 10, 0, {0}, {0}, "", ""},
    {"batch: one number", 0, 10, 10, 1, {REST}, {REST}, "", ""},
    {"batch: eight numbers are not read", 0, 100, 100, 8,
     {PAIR_AT, NOTE_AT, 9, 9, 9, 9}, {PAIR_AT, NOTE_AT, 9, 9, 9, 9}, "", ""},
    {"batch: outputs one after another, a last part of eight", 0, 64, 35, 26,
     {PAIR_AT, NOTE_AT, OLD, PAIR_AT, SUBJECT_AT, OLD,
      PAIR_AT, NOTE_AT, 7, 7, 7, 7},
     {PAIR_AT, NOTE_AT, 0, 0, 0, 32, 6, PAIR_AT, SUBJECT_AT, 0, 0, 0, 32, 29,
      PAIR_AT, NOTE_AT, 7, 7, 7, 7},
     PAIR PAIR, NOTE SUBJECT_OUT},
    {"batch: 8 takes no room in either buffer, a shorter one fits", 0, 64, 34,
     27,
     {PAIR_AT, NOTE_AT, OLD, PAIR_AT, SUBJECT_AT, OLD, PAIR_AT, NOTE_AT, OLD},
     {PAIR_AT, NOTE_AT, 0, 0, 0, 32, 6, PAIR_AT, SUBJECT_AT, 8, 29, 0, 0, 0,
      PAIR_AT, NOTE_AT, 0, 0, 0, 32, 6},
     PAIR PAIR, NOTE NOTE},
    {"batch: 7 by the room that is left", 0, 63, 100, 18,
     {PAIR_AT, NOTE_AT, OLD, PAIR_AT, SUBJECT_AT, OLD},
     {PAIR_AT, NOTE_AT, 0, 0, 0, 32, 6, PAIR_AT, SUBJECT_AT, 7, 32, 0, 0, 0},
     PAIR, NOTE},
    {"batch: refused records do not stop those after them", 0, 64, 64, 45,
     {NOTE_AT, NOTE_AT, OLD, PAIR_AT, 35, 3, OLD, RETIRED_AT, NOTE_AT, OLD,
      0, END + 1, NOTE_AT, OLD, PAIR_AT, END, 0, OLD},
     {NOTE_AT, NOTE_AT, 2, 0, 0, 0, 0, PAIR_AT, 35, 3, 5, 0, 1, 0, 0,
      RETIRED_AT, NOTE_AT, 4, 0, 28, 0, 0, 0, END + 1, NOTE_AT, 9, 0, 0, 0, 0,
      PAIR_AT, END, 0, 0, 0, 0, 32, 0},
     PAIR, ""},
    {"batch: one setting for all", 256, 64, 64, 18,
     {RETIRED_AT, NOTE_AT, OLD, PAIR_AT, NOTE_AT, OLD},
     {RETIRED_AT, NOTE_AT, 10, 0, 28, 0, 0, PAIR_AT, NOTE_AT, 0, 0, 0, 32, 6},
     PAIR, NOTE},
    {"batch: 9, one byte past the end", 0, 64, 64, 36,
     {0, END + 1, NOTE_AT, OLD, 52, 33, NOTE_AT, OLD,
      PAIR_AT, 0, END + 1, OLD, PAIR_AT, 84, 1, OLD},
     {0, END + 1, NOTE_AT, 9, 0, 0, 0, 0, 52, 33, NOTE_AT, 9, 0, 0, 0, 0,
      PAIR_AT, 0, END + 1, 9, 0, 0, 0, 0, PAIR_AT, 84, 1, 9, 0, 0, 0, 0},
     "", ""},
    {"batch: 9, a start past the end with no length", 0, 64, 64, 27,
     {END + 1, 0, NOTE_AT, OLD, PAIR_AT, END + 1, 0, OLD, END, 0, END, 0, OLD},
     {END + 1, 0, NOTE_AT, 9, 0, 0, 0, 0, PAIR_AT, END + 1, 0, 9, 0, 0, 0, 0,
      END, 0, END, 0, 2, 0, 0, 0, 0},
     "", ""},
    {"batch: 9, sums that wrap in 32 bits", 0, 64, 64, 45,
     {4294967295u, 1, NOTE_AT, OLD, 1, 4294967295u, NOTE_AT, OLD,
      PAIR_AT, 4294967264u, 38, OLD, PAIR_AT, 38, 4294967264u, OLD,
      2147483648u, 2147483648u, NOTE_AT, OLD},
     {4294967295u, 1, NOTE_AT, 9, 0, 0, 0, 0,
      1, 4294967295u, NOTE_AT, 9, 0, 0, 0, 0,
      PAIR_AT, 4294967264u, 38, 9, 0, 0, 0, 0,
      PAIR_AT, 38, 4294967264u, 9, 0, 0, 0, 0,
      2147483648u, 2147483648u, NOTE_AT, 9, 0, 0, 0, 0},
     "", ""},
};

static void expect_out(const char *part, const area *got, bytes want)
{
    if (want.len > got->len || memcmp(got->at, want.at, want.len) != 0) {
        blame("other %s", part);
    }
    if (!area_untouched(got, want.len)) {
        blame("a byte past the last of the %s changed", part);
    }
}

static void run_worked(const worked *w, area_kind kind)
{
    batch b;
    left l;

    b.setting = w->setting;
    b.input = bytes_of(INPUT);
    memcpy(b.numbers, w->before, sizeof w->before);
    b.count = w->count;
    b.envelope_room = w->envelope_room;
    b.header_room = w->header_room;
    l = call_batch(kind, &b);
    expect_numbers(&l, 0, w->after, w->count);
    expect_out("envelopes", &l.envelope, bytes_of(w->envelope_out));
    expect_out("headers", &l.header, bytes_of(w->header_out));
    left_free(&l);
}

static void test_worked(void)
{
    size_t i;
    int kind;

    if (strlen(INPUT) != END) {
        blame("the input has %zu bytes", strlen(INPUT));
    }
    for (i = 0; i < sizeof batches / sizeof batches[0]; i++) {
        for (kind = 0; kind < AREA_KINDS; kind++) {
            run_worked(&batches[i], (area_kind)kind);
        }
        report(batches[i].name);
    }
}

/* 9 goes before 1. */
static void test_range_first(void)
{
    text t = envelope_of(HENNELAKU_MAX_ENVELOPE + 1);
    uint32_t len = (uint32_t)t.len;
    const uint32_t want[] = {
        0, 0, 0, 0, 9, 0, 0, 0, 0, 0, 0, 0, 0, 1, 0, 0, 0, 0
    };
    batch b = {0, {NULL, 0}, {0}, 2 * NUMBERS, 0, 0};
    left l;

    b.input = text_bytes(&t);
    b.numbers[1] = len;
    b.numbers[2] = len;
    b.numbers[3] = 1;
    b.numbers[NUMBERS + 1] = len;
    l = call_batch(AREA_EXACT, &b);
    expect_numbers(&l, 4, want + 4, 5);
    expect_numbers(&l, NUMBERS + 4, want + NUMBERS + 4, 5);
    report("batch: 9 before 1");
    left_free(&l);
    text_free(&t);
}

static void test_null(void)
{
    uint32_t record[NUMBERS] = {0, 0, 0, 0, 1, 2, 3, 4, 5};
    const uint32_t empty[NUMBERS] = {0, 0, 0, 0, 2, 0, 0, 0, 0};
    const uint32_t past[NUMBERS] = {0, 0, 0, 1, 9, 0, 0, 0, 0};

    hennelaku_downgrade_batch(0, NULL, 0, NULL, 0, NULL, 0, NULL, 0);
    hennelaku_downgrade_batch(0, NULL, 0, record, NUMBERS, NULL, 0, NULL, 0);
    if (memcmp(record, empty, sizeof record) != 0) {
        blame("an empty input: %u at %u", (unsigned)record[4],
              (unsigned)record[5]);
    }
    record[3] = 1;
    hennelaku_downgrade_batch(0, NULL, 0, record, NUMBERS, NULL, 0, NULL, 0);
    if (memcmp(record, past, sizeof record) != 0) {
        blame("past an empty input: %u at %u", (unsigned)record[4],
              (unsigned)record[5]);
    }
    report("batch: nulls");
}

/* ---- random batches */

static uint32_t next_random(uint32_t *state)
{
    *state = *state * 1664525u + 1013904223u;
    return *state >> 12;
}

/* Where a worked case's text is in the input. */
typedef struct range {
    uint32_t start;
    uint32_t len;
} range;

static range add_range(text *t, const char *what)
{
    range r;

    r.start = (uint32_t)t->len;
    r.len = (uint32_t)strlen(what);
    text_add(t, what);
    return r;
}

/* All worked cases, those of both settings, one after another: envelopes at
 * even places, headers at odd ones. */
static text all_cases(range *ranges)
{
    text t = text_new(100000);
    size_t i;

    for (i = 0; i < case_count + current_case_count; i++) {
        const test_case *c = i < case_count ? &cases[i]
                                            : &current_cases[i - case_count];

        ranges[2 * i] = add_range(&t, c->envelope);
        ranges[2 * i + 1] = add_range(&t, c->header);
    }
    return t;
}

/* A range of the input: mostly that of a case, at times moved or wild. */
static range some_range(const range *ranges, size_t odd, size_t input_len,
                        uint32_t *state)
{
    size_t count = case_count + current_case_count;
    range r = ranges[2 * (next_random(state) % count) + odd];
    uint32_t way = next_random(state) % 40;

    if (way == 0) {
        r.start = next_random(state) % (uint32_t)(input_len + 3);
    } else if (way == 1) {
        r.len = next_random(state) % 40;
    } else if (way == 2) {
        r.start = 0u - next_random(state) % 200;
    } else if (way == 3) {
        r.len = 0u - next_random(state) % 200;
    } else if (way == 4) {
        r.len = (uint32_t)input_len - r.start + next_random(state) % 2;
    } else if (way == 5) {
        r.len = 0;
    }
    return r;
}

static void make_batch(batch *b, const range *ranges, uint32_t *state)
{
    size_t count = next_random(state) % 50;
    size_t at;

    b->setting = next_random(state) % 3;
    b->count = count * NUMBERS + next_random(state) % NUMBERS;
    for (at = 0; at < b->count; at++) {
        b->numbers[at] = next_random(state);
    }
    for (at = 0; at + NUMBERS <= b->count; at += NUMBERS) {
        range e = some_range(ranges, 0, b->input.len, state);
        range h = some_range(ranges, 1, b->input.len, state);

        b->numbers[at] = e.start;
        b->numbers[at + 1] = e.len;
        b->numbers[at + 2] = h.start;
        b->numbers[at + 3] = h.len;
    }
    b->envelope_room = next_random(state) % (uint32_t)(60 * count + 60);
    b->header_room = next_random(state) % (uint32_t)(120 * count + 120);
}

static void test_random(void)
{
    static range ranges[1000];
    size_t seen[11] = {0};
    uint32_t state = 5504;
    text t = all_cases(ranges);
    batch b;
    int turn;
    size_t i;

    b.input = text_bytes(&t);
    for (turn = 0; turn < 400; turn++) {
        make_batch(&b, ranges, &state);
        expect_by_single_calls((area_kind)(turn % AREA_KINDS), &b, seen);
    }
    for (i = 0; i < sizeof seen / sizeof seen[0]; i++) {
        if (i != HENNELAKU_TOO_LONG && seen[i] < 20) {
            blame("only %zu records with %zu", seen[i], i);
        }
    }
    report("batch: records by single calls with the room that is left");
    text_free(&t);
}

/* A night's bulletins: many records that share one envelope. */
static void test_many(void)
{
    enum { COUNT = 10000 };
    bytes input = bytes_of(INPUT);
    uint32_t *records = malloc(COUNT * NUMBERS * sizeof *records);
    area envelope = area_new(AREA_BEFORE_PAGE, COUNT * strlen(PAIR));
    area header = area_new(AREA_BEFORE_PAGE, COUNT * strlen(SUBJECT_OUT));
    const uint32_t want[NUMBERS] = {PAIR_AT, SUBJECT_AT, 0, 0, 0, 32, 29};
    size_t i;

    if (records == NULL) {
        fputs("no memory for a test\n", stderr);
        exit(2);
    }
    for (i = 0; i < COUNT; i++) {
        memcpy(records + i * NUMBERS, want, sizeof want);
        records[i * NUMBERS + HENNELAKU_RECORD_NUMBER] = 77;
    }
    hennelaku_downgrade_batch(0, input.at, input.len, records,
                              COUNT * NUMBERS, envelope.at, envelope.len,
                              header.at, header.len);
    for (i = 0; i < COUNT; i++) {
        if (memcmp(records + i * NUMBERS, want, sizeof want) != 0
            || memcmp(envelope.at + i * strlen(PAIR), PAIR, strlen(PAIR)) != 0
            || memcmp(header.at + i * strlen(SUBJECT_OUT), SUBJECT_OUT,
                      strlen(SUBJECT_OUT)) != 0) {
            blame("record %zu is wrong", i);
        }
    }
    report("batch: 10,000 records");
    free(records);
    area_free(&envelope);
    area_free(&header);
}

void test_batches(void)
{
    test_worked();
    test_range_first();
    test_null();
    test_random();
    test_many();
}
