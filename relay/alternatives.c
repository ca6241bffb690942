#include "alternatives.h"

#include <stdlib.h>
#include <string.h>

#include "address.h"
#include "alternatives_table.h"
#include "downgrade.h"
#include "whole_file.h"

/* A line of the file: a pair, or nothing where the address is empty. */
typedef struct pair {
    part address;
    part alternative;
} pair;

static int is_blank(uint8_t c)
{
    return c == ' ' || c == '\t' || c == '\r';
}

/* The place after the word at `at`. Blanks inside quotes belong to it: a local
 * part may be a quoted string. */
static size_t word_end(part line, size_t at)
{
    int quoted = 0;

    while (at < line.len && (quoted || !is_blank(line.bytes[at]))) {
        if (line.bytes[at] == '\\' && quoted && at + 1 < line.len) {
            at++;
        } else if (line.bytes[at] == '"') {
            quoted = !quoted;
        }
        at++;
    }
    return at;
}

/* The next word of a line, and the place after it; an empty one at the line's
 * end or where a # starts a comment. */
static part next_word(part line, size_t *at)
{
    size_t start;

    while (*at < line.len && is_blank(line.bytes[*at])) {
        ++*at;
    }
    if (*at < line.len && line.bytes[*at] == '#') {
        *at = line.len;
    }
    start = *at;
    *at = word_end(line, start);
    return part_between(line, start, *at);
}

/* Takes a line apart. Returns null, or what is wrong. */
static const char *read_pair(part line, pair *p)
{
    size_t at = 0;

    p->address = next_word(line, &at);
    p->alternative = next_word(line, &at);
    if (p->address.len > 0 && p->alternative.len == 0) {
        return "an address without its alternative";
    }
    return next_word(line, &at).len > 0
        ? "more than an address and its alternative" : NULL;
}

/* Cuts the first line off the rest of the file. */
static part next_line(part *rest)
{
    const uint8_t *lf = memchr(rest->bytes, '\n', rest->len);
    size_t len = lf == NULL ? rest->len : (size_t)(lf - rest->bytes);
    part line = part_between(*rest, 0, len);

    *rest = part_between(*rest, lf == NULL ? len : len + 1, rest->len);
    return line;
}

/* Some editors put a byte order mark before a text. */
static part without_mark(part text)
{
    part mark = part_of("\xEF\xBB\xBF");

    return text.len >= mark.len
        && part_equal(part_between(text, 0, mark.len), mark)
        ? part_between(text, mark.len, text.len) : text;
}

static int is_closing(part line)
{
    if (line.len > 0 && line.bytes[line.len - 1] == '\r') {
        line = part_between(line, 0, line.len - 1);
    }
    return part_equal(line, part_of(CLOSING_LINE));
}

/* Addresses of several lines, to be asked of the library in one envelope. */
typedef struct question {
    buffer envelope;
    size_t pairs;
    size_t first_line;
    part text;         /* the lines */
} question;

/* A pair takes up to two lines of the envelope, which has at most 100. */
#define MAX_PAIRS 50

/* The library takes 16,384 bytes; of lines that are too long together each is
 * asked about alone. */
#define MAX_ASKED 12000

static void start_lines(question *q, part rest, size_t line)
{
    q->pairs = 0;
    q->first_line = line;
    q->text = part_between(rest, 0, 0);
    start_question(&q->envelope);
}

static const char *check_pair(const pair *p)
{
    return !is_address(p->address) ? "the first word is not an address"
         : part_is_ascii(p->address)
         ? "the first address is ASCII: it goes out as it is"
         : !is_ascii_address(p->alternative)
         ? "the alternative is not an ASCII address"
         : NULL;
}

/* Finds the first of the lines that is wrong. */
static void find_fault(const question *q, file_fault *fault)
{
    part rest = q->text;
    size_t line = q->first_line;
    pair p;

    for (; rest.len > 0; line++) {
        const char *reason = read_pair(next_line(&rest), &p);

        if (reason == NULL && p.address.len > 0) {
            reason = check_pair(&p);
        }
        if (reason != NULL) {
            fault->line = line;
            fault->reason = reason;
            return;
        }
    }
}

/* Asks the library about the lines together, and where it refuses them about
 * each. */
static void ask_library(question *q, file_fault *fault)
{
    if (q->envelope.failed) {
        fault->line = 0;
        fault->reason = "no memory";
    } else if (q->pairs > 0 && !is_envelope(buffer_part(&q->envelope))) {
        find_fault(q, fault);
    }
}

/* Looks at the lines before the closing one. */
static void check_lines(part rest, file_fault *fault)
{
    question q = {{NULL, 0, 0, 0}, 0, 1, {NULL, 0}};
    size_t line = 1;
    pair p;

    start_lines(&q, rest, line);
    for (; rest.len > 0 && fault->reason == NULL; line++) {
        part text = next_line(&rest);
        const char *reason = read_pair(text, &p);

        q.text.len = (size_t)(rest.bytes - q.text.bytes);
        if (reason != NULL
            || (p.address.len > 0 && part_is_ascii(p.address))) {
            find_fault(&q, fault);
        } else if (p.address.len > 0) {
            ask_recipient(&q.envelope, p.address, p.alternative);
            q.pairs++;
        }
        if (q.pairs == MAX_PAIRS || q.envelope.len > MAX_ASKED) {
            ask_library(&q, fault);
            start_lines(&q, rest, line + 1);
        }
    }
    if (fault->reason == NULL) {
        ask_library(&q, fault);
    }
    buffer_clear(&q.envelope);
}

/* Whether the closing line is the last one and no other. */
static void check_closing(part rest, file_fault *fault)
{
    int is_closed = 0;
    size_t line;

    if (rest.len == 0) {
        fault->line = 1;
        fault->reason = "the file is empty: its last line has to be '"
                        CLOSING_LINE "'";
        return;
    }
    for (line = 1; rest.len > 0; line++) {
        int has_end = memchr(rest.bytes, '\n', rest.len) != NULL;

        if (is_closed) {
            fault->line = line;
            fault->reason = "a line after the closing line '" CLOSING_LINE
                            "', which has to be the last";
            return;
        }
        is_closed = is_closing(next_line(&rest)) && has_end;
    }
    if (!is_closed) {
        fault->line = line - 1;
        fault->reason = "the file is not whole: its last line has to be '"
                        CLOSING_LINE "', with a newline";
    }
}

void check_text(part text, file_fault *fault)
{
    part rest = without_mark(text);

    fault->line = 0;
    fault->reason = NULL;
    check_closing(rest, fault);
    if (fault->reason == NULL) {
        check_lines(rest, fault);
    }
}

/* An address that is looked for. */
typedef struct wanted {
    buffer local;    /* in NFC */
    buffer domain;   /* its key */
    buffer unicode;  /* the domain in U-labels */
} wanted;

static int is_wanted_local(const wanted *w, part local)
{
    buffer key = {NULL, 0, 0, 0};
    int is = part_equal(local, buffer_part(&w->local));

    if (!is && !is_settled(local)) {
        add_nfc(&key, local);
        is = !key.failed
            && part_equal(buffer_part(&key), buffer_part(&w->local));
        buffer_clear(&key);
    }
    return is;
}

static int is_wanted_domain(const wanted *w, part domain)
{
    buffer key = {NULL, 0, 0, 0};
    int is;

    if (is_settled_domain(domain)) {
        return part_equal(domain, buffer_part(&w->unicode));
    }
    add_domain_key(&key, domain);
    is = !key.failed
        && part_equal(buffer_part(&key), buffer_part(&w->domain));
    buffer_clear(&key);
    return is;
}

static int is_wanted(const wanted *w, part address)
{
    return is_wanted_local(w, local_part_of(address))
        && is_wanted_domain(w, domain_of(address));
}

/* Looks through a text without bad lines. */
static int find_in_text(part text, const wanted *w, buffer *alternative,
                        file_fault *fault)
{
    part rest = without_mark(text);
    part first = {NULL, 0};
    int found = 0;
    size_t line;
    pair p;

    for (line = 1; rest.len > 0; line++) {
        if (read_pair(next_line(&rest), &p) != NULL || p.address.len == 0
            || !is_wanted(w, p.address)) {
            continue;
        }
        if (found && !part_equal(p.alternative, first)) {
            fault->line = line;
            fault->reason = "another alternative for an address above";
            return 0;
        }
        first = p.alternative;
        found = 1;
    }
    if (found) {
        buffer_add(alternative, first);
    }
    return found;
}

int find_alternative(const alternatives *a, part address, buffer *alternative,
                     file_fault *fault)
{
    wanted w = {{NULL, 0, 0, 0}, {NULL, 0, 0, 0}, {NULL, 0, 0, 0}};
    int found = 0;

    fault->line = 0;
    fault->reason = NULL;
    if (a->name == NULL) {
        return 0;
    }
    if (a->is_table) {
        return find_in_table(&a->table, address, alternative, fault);
    }
    add_nfc(&w.local, local_part_of(address));
    add_domain_key(&w.domain, domain_of(address));
    add_domain_unicode(&w.unicode, domain_of(address));
    if (w.local.failed || w.domain.failed || w.unicode.failed) {
        fault->reason = "no memory";
    } else {
        found = find_in_text(buffer_part(&a->text), &w, alternative, fault);
    }
    buffer_clear(&w.local);
    buffer_clear(&w.domain);
    buffer_clear(&w.unicode);
    return found;
}

int alternatives_open(alternatives *a, const char *name, file_fault *fault)
{
    a->name = name;
    fault->line = 0;
    fault->reason = NULL;
    if (strncmp(name, "cdb:", 4) == 0) {
        a->is_table = 1;
        open_table(&a->table, name + 4, fault);
    } else {
        fault->reason = read_whole_file(name, MAX_ALTERNATIVES, &a->text);
        if (fault->reason == NULL) {
            check_text(buffer_part(&a->text), fault);
        }
    }
    return fault->reason == NULL;
}

/* An entry with its key, for sorting. */
typedef struct entry {
    buffer key;
    part alternative;
    size_t line;
} entry;

static int compare_entries(const void *a, const void *b)
{
    const entry *x = a;
    const entry *y = b;
    size_t len = x->key.len < y->key.len ? x->key.len : y->key.len;
    int order = memcmp(x->key.bytes, y->key.bytes, len);

    return order != 0 ? order
         : x->key.len != y->key.len ? (x->key.len < y->key.len ? -1 : 1)
         : x->line < y->line ? -1 : x->line > y->line;
}

/* The first line that says something else of an address than one above. */
static void find_differing(entry *entries, size_t count, file_fault *fault)
{
    size_t i;

    if (count > 0) {
        qsort(entries, count, sizeof *entries, compare_entries);
    }
    for (i = 1; i < count; i++) {
        if (part_equal(buffer_part(&entries[i].key),
                       buffer_part(&entries[i - 1].key))
            && !part_equal(entries[i].alternative,
                           entries[i - 1].alternative)
            && (fault->reason == NULL || entries[i].line < fault->line)) {
            fault->line = entries[i].line;
            fault->reason = "another alternative for an address above";
        }
    }
}

/* Gathers the pairs of a text. Returns how many there are. */
static size_t gather_entries(part rest, entry *entries)
{
    size_t count = 0;
    size_t line;
    pair p;

    for (line = 1; rest.len > 0; line++) {
        if (read_pair(next_line(&rest), &p) != NULL || p.address.len == 0) {
            continue;
        }
        if (entries != NULL) {
            add_address_key(&entries[count].key, p.address);
            entries[count].alternative = p.alternative;
            entries[count].line = line;
        }
        count++;
    }
    return count;
}

size_t check_alternatives(const alternatives *a, file_fault *fault)
{
    part rest = without_mark(buffer_part(&a->text));
    size_t count;
    entry *entries;
    size_t i;

    fault->line = 0;
    fault->reason = NULL;
    if (a->is_table) {
        return check_table(&a->table, fault);
    }
    count = gather_entries(rest, NULL);
    entries = calloc(count == 0 ? 1 : count, sizeof *entries);
    if (entries == NULL) {
        fault->reason = "no memory";
        return 0;
    }
    gather_entries(rest, entries);
    find_differing(entries, count, fault);
    for (i = 0; i < count; i++) {
        buffer_clear(&entries[i].key);
    }
    free(entries);
    return count;
}

void alternatives_clear(alternatives *a)
{
    if (a->is_table) {
        cdb_close(&a->table);
    }
    buffer_clear(&a->text);
    memset(a, 0, sizeof *a);
}
