/*
 * Downgrades a spool file of bulletins in one call, and prints a table of what
 * became of each. In the file each bulletin has its envelope lines, an empty
 * line, its header lines and an empty line; lines end in CRLF.
 *
 *     cc batch.c $(pkg-config --cflags --libs hennelaku) -o batch
 *     ./batch spool.txt
 */
#include <stdio.h>
#include <stdlib.h>
#include <string.h>

#include <hennelaku.h>

#define MAX_FILE 16000000
#define MAX_BULLETINS 10000

static uint8_t input[MAX_FILE];
static uint32_t records[MAX_BULLETINS * HENNELAKU_RECORD_SIZE];

/* The length of the part from `start` on, up to the empty line after it; -1
 * where no empty line is there. */
static long part_len(size_t start, size_t end)
{
    size_t i;

    for (i = start; i + 1 < end; i++) {
        if (input[i] == '\r' && input[i + 1] == '\n'
            && (i == start || (i >= start + 2 && input[i - 2] == '\r'
                               && input[i - 1] == '\n'))) {
            return (long)(i - start);
        }
    }
    return -1;
}

/* Fills the ranges of the records. Returns how many bulletins there are, or -1
 * where the file ends inside one or has too many. */
static long find_bulletins(size_t end)
{
    size_t at = 0;
    long count = 0;

    while (at < end) {
        uint32_t *r = records + count * HENNELAKU_RECORD_SIZE;
        long envelope = part_len(at, end);
        size_t header_at = at + (size_t)envelope + 2;
        long header = envelope < 0 ? -1 : part_len(header_at, end);

        if (header < 0 || count == MAX_BULLETINS) {
            return -1;
        }
        r[HENNELAKU_RECORD_ENVELOPE_START] = (uint32_t)at;
        r[HENNELAKU_RECORD_ENVELOPE_LEN] = (uint32_t)envelope;
        r[HENNELAKU_RECORD_HEADER_START] = (uint32_t)header_at;
        r[HENNELAKU_RECORD_HEADER_LEN] = (uint32_t)header;
        at = header_at + (size_t)header + 2;
        count++;
    }
    return count;
}

static void print_table(long count)
{
    long i;

    puts("bulletin  number  place  offset  envelope  header  meaning");
    for (i = 0; i < count; i++) {
        const uint32_t *r = records + i * HENNELAKU_RECORD_SIZE;

        printf("%8ld  %6u  %5u  %6u  %8u  %6u  %s\n", i,
               (unsigned)r[HENNELAKU_RECORD_NUMBER],
               (unsigned)r[HENNELAKU_RECORD_PLACE],
               (unsigned)r[HENNELAKU_RECORD_OFFSET],
               (unsigned)r[HENNELAKU_RECORD_OUT_ENVELOPE_LEN],
               (unsigned)r[HENNELAKU_RECORD_OUT_HEADER_LEN],
               hennelaku_number_text(r[HENNELAKU_RECORD_NUMBER]));
    }
}

/* Downgrades the bulletins into buffers in which each has room. Returns 0 where
 * there is no memory for them. */
static int downgrade(size_t len, long count)
{
    size_t envelope_room = 1;
    size_t header_room = 1;
    uint8_t *envelopes;
    uint8_t *headers;
    long i;

    for (i = 0; i < count; i++) {
        const uint32_t *r = records + i * HENNELAKU_RECORD_SIZE;

        envelope_room += r[HENNELAKU_RECORD_ENVELOPE_LEN];
        header_room += HENNELAKU_HEADER_ROOM_FOR(
            (size_t)r[HENNELAKU_RECORD_HEADER_LEN]);
    }
    envelopes = malloc(envelope_room);
    headers = malloc(header_room);
    if (envelopes != NULL && headers != NULL) {
        hennelaku_downgrade_batch(
            HENNELAKU_SPOOL, input, len, records,
            (size_t)count * HENNELAKU_RECORD_SIZE,
            envelopes, envelope_room, headers, header_room);
        print_table(count);
        /* The outgoing envelopes and headers stand one after another in the two
         * buffers: those of a bulletin begin where those before it end. */
    }
    free(envelopes);
    free(headers);
    return envelopes != NULL && headers != NULL;
}

int main(int argc, char **argv)
{
    FILE *file = argc == 2 ? fopen(argv[1], "rb") : NULL;
    size_t len;
    long count;

    if (file == NULL) {
        fprintf(stderr, "usage: batch FILE, a file that can be read\n");
        return 64;
    }
    len = fread(input, 1, sizeof input, file);
    fclose(file);
    count = len == sizeof input ? -1 : find_bulletins(len);
    if (count < 0) {
        fprintf(stderr, "%s: not a spool file, or too large\n", argv[1]);
        return 65;
    }
    if (!downgrade(len, count)) {
        fprintf(stderr, "%s: no memory\n", argv[1]);
        return 75;
    }
    return 0;
}
