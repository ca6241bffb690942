#define _XOPEN_SOURCE 700

#include "cdb.h"

#include <errno.h>
#include <fcntl.h>
#include <string.h>
#include <sys/stat.h>
#include <unistd.h>

/* No key and no value is longer than this, nor a hash table. */
#define MAX_DATA 65536u
#define MAX_SLOTS 1048576u

static const char not_whole[] = "not a whole cdb table";

typedef struct pair_of_numbers {
    uint32_t first;
    uint32_t second;
} pair_of_numbers;

static uint32_t number_at(const uint8_t *bytes)
{
    return (uint32_t)bytes[0] | (uint32_t)bytes[1] << 8
        | (uint32_t)bytes[2] << 16 | (uint32_t)bytes[3] << 24;
}

static pair_of_numbers numbers_at(const uint8_t *bytes)
{
    pair_of_numbers p;

    p.first = number_at(bytes);
    p.second = number_at(bytes + 4);
    return p;
}

/* Reads bytes at a place; all of them have to be there. */
static int read_at(const cdb *c, uint32_t at, uint8_t *bytes, uint32_t len,
                   const char **reason)
{
    uint32_t done = 0;

    *reason = not_whole;
    if (at > c->size || len > c->size - at) {
        return 0;
    }
    while (done < len) {
        ssize_t got = pread(c->fd, bytes + done, len - done,
                            (off_t)at + (off_t)done);

        if (got < 0 && errno != EINTR) {
            *reason = strerror(errno);
            return 0;
        }
        if (got == 0) {
            return 0;
        }
        done += got > 0 ? (uint32_t)got : 0;
    }
    *reason = NULL;
    return 1;
}

/* Reads into a buffer. */
static int read_buffer(const cdb *c, uint32_t at, buffer *into, uint32_t len,
                       const char **reason)
{
    into->len = 0;
    if (!buffer_reserve(into, len == 0 ? 1 : len)) {
        *reason = "no memory";
        return 0;
    }
    if (!read_at(c, at, into->bytes, len, reason)) {
        return 0;
    }
    into->len = len;
    return 1;
}

/* Whether the hash tables lie one after another up to the file's end. */
static int check_tables(cdb *c, const char **reason)
{
    uint8_t header[CDB_FIRST];
    uint32_t place;
    size_t i;

    if (!read_at(c, 0, header, sizeof header, reason)) {
        return 0;
    }
    *reason = not_whole;
    place = c->end = number_at(header);
    if (c->end < CDB_FIRST) {
        return 0;
    }
    for (i = 0; i < 256; i++) {
        pair_of_numbers table = numbers_at(header + 8 * i);

        if (table.first != place || table.second > MAX_SLOTS
            || place > c->size || table.second * 8 > c->size - place) {
            return 0;
        }
        place += table.second * 8;
    }
    if (place != c->size) {
        return 0;
    }
    *reason = NULL;
    return 1;
}

static long long time_of(const struct stat *state)
{
    return (long long)state->st_mtim.tv_sec * 1000000000
        + state->st_mtim.tv_nsec;
}

enum cdb_result cdb_open(cdb *c, const char *name, const char **reason)
{
    struct stat state;

    *reason = NULL;
    c->fd = open(name, O_RDONLY | O_CLOEXEC | O_NONBLOCK | O_NOCTTY);
    if (c->fd < 0 || fstat(c->fd, &state) != 0) {
        *reason = strerror(errno);
    } else if (!S_ISREG(state.st_mode) || state.st_size < CDB_FIRST
               || state.st_size > (off_t)0x7FFFFFFF) {
        *reason = not_whole;
    } else {
        c->size = (uint32_t)state.st_size;
        c->changed = time_of(&state);
        check_tables(c, reason);
    }
    return *reason == NULL ? CDB_FOUND : CDB_FAILED;
}

/* Key and value of a record: its place is set to that of the next one. */
static int read_record(const cdb *c, uint32_t *at, buffer *key, buffer *value,
                       const char **reason)
{
    uint8_t lengths[8];
    pair_of_numbers len;

    *reason = not_whole;
    if (*at < CDB_FIRST || *at > c->end || c->end - *at < 8
        || !read_at(c, *at, lengths, 8, reason)) {
        return 0;
    }
    len = numbers_at(lengths);
    *reason = not_whole;
    if (len.first > MAX_DATA || len.second > MAX_DATA
        || len.first + len.second > c->end - *at - 8
        || !read_buffer(c, *at + 8, key, len.first, reason)
        || !read_buffer(c, *at + 8 + len.first, value, len.second, reason)) {
        return 0;
    }
    *at += 8 + len.first + len.second;
    return 1;
}

enum cdb_result cdb_next(const cdb *c, uint32_t *at, buffer *key,
                         buffer *value, const char **reason)
{
    *reason = NULL;
    if (*at == c->end) {
        return CDB_NONE;
    }
    return read_record(c, at, key, value, reason) ? CDB_FOUND : CDB_FAILED;
}

static uint32_t hash_of(part key)
{
    uint32_t hash = 5381;
    size_t i;

    for (i = 0; i < key.len; i++) {
        hash = (hash * 33) ^ key.bytes[i];
    }
    return hash;
}

/* Half of a table's slots are used: a table in which there are fewer has lost
 * some, and a key that is not found there may have stood in it. */
static int is_filled(part slots)
{
    size_t used = 0;
    size_t i;

    for (i = 0; i < slots.len; i += 8) {
        used += numbers_at(slots.bytes + i).second != 0;
    }
    return used * 16 == slots.len;
}

/* Looks through the slots from the hash's own on, as far as an empty one. */
static enum cdb_result find_in(const cdb *c, part slots, part key, size_t n,
                               buffer *value, const char **reason)
{
    uint32_t hash = hash_of(key);
    size_t count = slots.len / 8;
    size_t slot = (hash >> 8) % count;
    enum cdb_result result = CDB_NONE;
    buffer found = {NULL, 0, 0, 0};
    size_t i;

    for (i = 0; i < count && result == CDB_NONE; i++) {
        pair_of_numbers s = numbers_at(slots.bytes + 8 * slot);
        uint32_t at = s.second;

        if (at == 0) {
            break;
        }
        if (s.first == hash) {
            if (!read_record(c, &at, &found, value, reason)) {
                result = CDB_FAILED;
            } else if (part_equal(buffer_part(&found), key) && n-- == 0) {
                result = CDB_FOUND;
            }
        }
        slot = slot + 1 == count ? 0 : slot + 1;
    }
    buffer_clear(&found);
    return result;
}

enum cdb_result cdb_find(const cdb *c, part key, size_t n, buffer *value,
                         const char **reason)
{
    enum cdb_result result = CDB_FAILED;
    buffer slots = {NULL, 0, 0, 0};
    pair_of_numbers table;
    uint8_t place[8];

    *reason = NULL;
    if (!read_at(c, (hash_of(key) & 255) * 8, place, 8, reason)) {
        return CDB_FAILED;
    }
    table = numbers_at(place);
    if (table.second == 0) {
        return CDB_NONE;
    }
    if (table.second > MAX_SLOTS) {
        *reason = not_whole;
    } else if (read_buffer(c, table.first, &slots, table.second * 8,
                           reason)) {
        if (is_filled(buffer_part(&slots))) {
            result = find_in(c, buffer_part(&slots), key, n, value, reason);
        } else {
            *reason = not_whole;
        }
    }
    buffer_clear(&slots);
    return result;
}

int cdb_is_unchanged(const cdb *c)
{
    struct stat state;

    return fstat(c->fd, &state) == 0 && state.st_size == (off_t)c->size
        && time_of(&state) == c->changed;
}

void cdb_close(cdb *c)
{
    if (c->fd >= 0) {
        close(c->fd);
    }
    c->fd = -1;
}
