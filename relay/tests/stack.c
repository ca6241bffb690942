/*
 * Measures the stack that calls use. Each input is run on a thread whose stack
 * was filled with a known value; what a thread that calls nothing uses is
 * taken off. Frames have a fixed size, so that the deepest chain of calls
 * counts; the inputs reach every kind of field, short and long.
 */
#define _DEFAULT_SOURCE
#include <pthread.h>
#include <stdio.h>
#include <stdlib.h>
#include <string.h>
#include <sys/mman.h>

#include "call.h"
#include "cases.h"

#define STACK ((size_t)8 * 1024 * 1024)
#define FILL 0x5A

#define E_ACUTE "\xC3\xA9"
#define PLAIN "MAIL FROM:<a@x>\r\nRCPT TO:<b@x>\r\n"

/* How a thread calls. */
typedef enum way {
    NO_CALL, ONE_CALL, ONE_BATCH, ONE_MAILBOX, ONE_READ, WAYS
} way;

typedef struct job {
    bytes envelope;
    bytes header;
    uint64_t setting;
    way calls;
} job;

static uint8_t envelope_buffer[HENNELAKU_ENVELOPE_ROOM_MAX];
static uint8_t header_buffer[HENNELAKU_HEADER_ROOM_MAX];
static uint8_t input[HENNELAKU_MAX_ENVELOPE + HENNELAKU_MAX_HEADER];
static uint32_t record[HENNELAKU_RECORD_SIZE];

/* Puts a job's message into the input and the record of a batch. */
static void fill_batch(const job *j)
{
    memcpy(input, j->envelope.at, j->envelope.len);
    memcpy(input + j->envelope.len, j->header.at, j->header.len);
    record[HENNELAKU_RECORD_ENVELOPE_START] = 0;
    record[HENNELAKU_RECORD_ENVELOPE_LEN] = (uint32_t)j->envelope.len;
    record[HENNELAKU_RECORD_HEADER_START] = (uint32_t)j->envelope.len;
    record[HENNELAKU_RECORD_HEADER_LEN] = (uint32_t)j->header.len;
}

static void *run(void *argument)
{
    job *j = argument;

    if (j->calls == ONE_CALL) {
        (void)hennelaku_downgrade(
            j->setting, j->envelope.at, j->envelope.len, j->header.at,
            j->header.len, envelope_buffer, sizeof envelope_buffer,
            header_buffer, sizeof header_buffer);
    } else if (j->calls == ONE_BATCH) {
        hennelaku_downgrade_batch(
            j->setting, input, j->envelope.len + j->header.len, record,
            HENNELAKU_RECORD_SIZE, envelope_buffer, sizeof envelope_buffer,
            header_buffer, sizeof header_buffer);
    } else if (j->calls == ONE_MAILBOX) {
        (void)hennelaku_downgrade_mailbox(j->header.at, j->header.len,
                                          header_buffer,
                                          sizeof header_buffer);
    } else if (j->calls == ONE_READ) {
        (void)hennelaku_read_downgraded(j->header.at, j->header.len, 0,
                                        header_buffer, sizeof header_buffer);
    }
    return NULL;
}

/* The bytes of stack that a thread used. */
static size_t used_by(job *j)
{
    uint8_t *stack = mmap(NULL, STACK, PROT_READ | PROT_WRITE,
                          MAP_PRIVATE | MAP_ANONYMOUS, -1, 0);
    pthread_attr_t attributes;
    pthread_t thread;
    size_t unused = 0;

    if (stack == MAP_FAILED) {
        fputs("no memory for a stack\n", stderr);
        exit(2);
    }
    memset(stack, FILL, STACK);
    if (pthread_attr_init(&attributes) != 0
        || pthread_attr_setstack(&attributes, stack, STACK) != 0
        || pthread_create(&thread, &attributes, run, j) != 0
        || pthread_join(thread, NULL) != 0) {
        fputs("no thread\n", stderr);
        exit(2);
    }
    pthread_attr_destroy(&attributes);
    while (unused < STACK && stack[unused] == FILL) {
        unused++;
    }
    munmap(stack, STACK);
    return STACK - unused;
}

/* A folded field of more than 1,024 bytes: NAME, two words of 800 bytes and an
 * end. Long fields and phrases take larger buffers than short ones. */
static const char *long_field(char *at, const char *name, const char *end)
{
    char *to = at + sprintf(at, "%s: " E_ACUTE, name);

    memset(to, 'a', 800);
    to += 800 + sprintf(to + 800, "\r\n ");
    memset(to, 'a', 800);
    sprintf(to + 800, "%s\r\n", end);
    return at;
}

/* A long field with comments inside comments, deeper than calls go. */
static const char *nested_field(char *at, const char *start)
{
    char *to = at + sprintf(at, "%s", start);

    memset(to, '(', 400);
    to += 400 + sprintf(to + 400, "\r\n ");
    memset(to, '(', 400);
    to += 400 + sprintf(to + 400, E_ACUTE);
    memset(to, ')', 400);
    to += 400 + sprintf(to + 400, "\r\n ");
    memset(to, ')', 400);
    sprintf(to + 400, "\r\n");
    return at;
}

int main(void)
{
    static char to[2048], subject[2048], unfit[2048], deep[2048], date[2048],
        received[2048], parameter[2048];
    const char *const headers[] = {
        long_field(to, "To", " <" E_ACUTE "@x>"),
        long_field(subject, "Subject", ""),
        long_field(unfit, "Cc", " <"),
        nested_field(deep, "To: a@x "),
        nested_field(date, "Date: "),
        nested_field(received, "Received: a for <" E_ACUTE "@x> "),
        "To: " E_ACUTE "@x,\r\n \"" E_ACUTE "\" <" E_ACUTE "@x\r\n <a@x>>\r\n",
        "To: g:\r\n " E_ACUTE "@x, a <b@x>;, <c@x>\r\n",
        "Subject: " E_ACUTE "\r\n " E_ACUTE "\r\n",
        "X-Note: " E_ACUTE "\r\n " E_ACUTE "\r\n",
        "To: " E_ACUTE "\r\n " E_ACUTE "\r\n",
        "Message-ID: <" E_ACUTE "@x>\r\n (" E_ACUTE ")\r\n",
        "Content-Type: a/b; c=\"" E_ACUTE "\\\"\r\n d\"; e=f\r\n",
        long_field(parameter, "Content-Disposition: a; b=\"c", "\""),
        "Downgraded-A: =?UTF-8?Q?=C3=A9_a?=\r\n =?UTF-8?B?w6k=?= b\r\n",
        "Downgraded-A: =?UTF-8?Q?=C3?= =?A?B?w6k=?= =?UTF-8?X?a?=\r\n"
    };
    job nothing = {{NULL, 0}, {NULL, 0}, HENNELAKU_SPOOL, NO_CALL};
    size_t least = used_by(&nothing);
    size_t most = least;
    size_t count = sizeof headers / sizeof headers[0];
    size_t i;

    for (i = 0; i < 2 * (case_count + count); i++) {
        size_t at = i / 2;
        job j = {{NULL, 0}, {NULL, 0}, HENNELAKU_SPOOL, ONE_CALL};
        size_t used;

        j.setting = i % 2 == 0 ? HENNELAKU_SPOOL : HENNELAKU_CURRENT;
        j.envelope = bytes_of(at < case_count ? cases[at].envelope : PLAIN);
        j.header = bytes_of(at < case_count ? cases[at].header
                                            : headers[at - case_count]);
        fill_batch(&j);
        for (; j.calls < WAYS; j.calls++) {
            used = used_by(&j);
            if (used > most) {
                most = used;
            }
        }
    }
    printf("stack of a call: %zu bytes measured; HENNELAKU_STACK is %d\n",
           most - least, HENNELAKU_STACK);
    return most - least <= HENNELAKU_STACK ? 0 : 1;
}
