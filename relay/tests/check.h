/* What tests expect of a call, and the inputs that they build. */
#ifndef CHECK_H
#define CHECK_H

#include "call.h"
#include "cases.h"

#define MAIL "MAIL FROM:<a@example.org>\r\n"
#define RCPT "RCPT TO:<b@example.net>\r\n"
#define PLAIN MAIL RCPT
#define E_ACUTE "\xC3\xA9"

/* Says what is wrong in the current test; the first such word counts. */
void blame(const char *format, ...);

/* Closes the current test: one line, ok or FAIL. */
void report(const char *name);

/* How many tests failed. */
int failed_tests(void);

/* The answer of a refusal. */
hennelaku_answer refusal(uint32_t number, uint32_t input, size_t place,
                         size_t offset);

/* The refusals by 7 and 8. */
hennelaku_answer no_envelope_room(size_t needed);
hennelaku_answer no_header_room(size_t needed);

/* Number, input, place and offset, and what holds of every call. */
void expect_answer(const outcome *o, hennelaku_answer want);

/* A call that is to be refused so. */
void expect_refusal(uint64_t setting, area_kind kind, bytes envelope,
                    bytes header, size_t envelope_room, size_t header_room,
                    hennelaku_answer want);

/* A call that is to write just this. */
void expect_output(uint64_t setting, area_kind kind, bytes envelope,
                   bytes header, size_t envelope_room, size_t header_room,
                   bytes envelope_out, bytes header_out);

/* A worked case in each kind of memory, with buffers of several sizes. */
void expect_case(uint64_t setting, const test_case *t);

/* Bytes that a test builds; to be freed by text_free. */
typedef struct text {
    uint8_t *at;
    size_t len;
    size_t room;
} text;

text text_new(size_t room);
void text_free(text *t);
bytes text_bytes(const text *t);

/* Each ends the program where the room does not suffice. */
void text_add(text *t, const char *what);
void text_fill(text *t, char byte, size_t count);

/* An envelope of MAIL and some RCPT lines. */
text recipients(size_t count);

/* A well-formed header of exactly so many bytes, at least 20. */
text header_of(size_t len);

/* A well-formed envelope of exactly so many bytes, at least 2,000. */
text envelope_of(size_t len);

#endif
