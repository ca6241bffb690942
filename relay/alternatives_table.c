#include "alternatives_table.h"

#include <stdlib.h>
#include <string.h>
#include <unicase.h>

#include "address.h"

void open_table(cdb *c, const char *name, file_fault *fault)
{
    buffer file = {NULL, 0, 0, 0};

    buffer_add_text(&file, name);
    buffer_add_text(&file, ".cdb");
    buffer_add_byte(&file, 0);
    if (file.failed) {
        c->fd = -1;
        fault->reason = "no memory";
    } else {
        cdb_open(c, (const char *)file.bytes, &fault->reason);
    }
    buffer_clear(&file);
}

/* postmap may end keys and values in a NUL. */
static part without_nul(part p)
{
    return p.len > 0 && p.bytes[p.len - 1] == 0 ? part_between(p, 0, p.len - 1)
                                                : p;
}

/* What is known of an address after some lookups. */
typedef struct lookup {
    const cdb *table;
    buffer value;    /* of the last one */
    buffer *found;   /* where the alternative goes */
    int is_found;
    file_fault *fault;
} lookup;

static void take_value(lookup *l, part value)
{
    if (!is_ascii_address(value)) {
        l->fault->reason = "a value is not an ASCII address";
    } else if (l->is_found && !part_equal(buffer_part(l->found), value)) {
        l->fault->reason = "two alternatives for one address";
    } else if (!l->is_found) {
        l->found->len = 0;
        buffer_add(l->found, value);
        l->is_found = 1;
    }
}

/* Takes every value of a key. */
static void look_up_bytes(lookup *l, part key)
{
    enum cdb_result r = CDB_FOUND;
    size_t n;

    for (n = 0; r == CDB_FOUND && l->fault->reason == NULL; n++) {
        r = cdb_find(l->table, key, n, &l->value, &l->fault->reason);
        if (r == CDB_FOUND) {
            take_value(l, without_nul(buffer_part(&l->value)));
        }
    }
}

static void look_up(lookup *l, const buffer *local, const buffer *domain)
{
    buffer key = {NULL, 0, 0, 0};

    buffer_add(&key, buffer_part(local));
    buffer_add_byte(&key, '@');
    buffer_add(&key, buffer_part(domain));
    if (key.failed || local->failed || domain->failed) {
        l->fault->reason = "no memory";
    } else {
        look_up_bytes(l, buffer_part(&key));
        buffer_add_byte(&key, 0);
        look_up_bytes(l, buffer_part(&key));
    }
    buffer_clear(&key);
}

/* Spellings of the parts of an address. */
typedef struct spellings {
    buffer locals[2];
    buffer domains[3];
} spellings;

/* Adds a text with its letter case folded, as postmap does without -f. */
static void add_folded(buffer *to, part text)
{
    size_t len = 0;
    uint8_t *folded = u8_casefold(text.bytes, text.len, NULL, NULL, NULL,
                                  &len);
    part p;

    if (folded == NULL) {
        buffer_add(to, text);
        return;
    }
    p.bytes = folded;
    p.len = len;
    buffer_add(to, p);
    free(folded);
}

static void look_up_all(lookup *l, const spellings *s)
{
    size_t i;
    size_t j;

    for (i = 0; i < 2; i++) {
        for (j = 0; j < 3; j++) {
            look_up(l, &s->locals[i], &s->domains[j]);
        }
    }
}

static void clear_spellings(spellings *s)
{
    size_t i;

    for (i = 0; i < 2; i++) {
        buffer_clear(&s->locals[i]);
    }
    for (i = 0; i < 3; i++) {
        buffer_clear(&s->domains[i]);
    }
}

static void add_spellings(spellings *s, part address)
{
    part local = local_part_of(address);
    part domain = domain_of(address);

    buffer_add(&s->locals[0], local);
    add_nfc(&s->locals[1], local);
    buffer_add(&s->domains[0], domain);
    add_domain_unicode(&s->domains[1], domain);
    add_domain_key(&s->domains[2], domain);
}

/* The same with the letter case folded: where that finds something, the table
 * was made without -f, or has another address. */
static void look_up_folded(lookup *l, const spellings *s)
{
    spellings folded;
    buffer other = {NULL, 0, 0, 0};
    size_t i;

    memset(&folded, 0, sizeof folded);
    for (i = 0; i < 2; i++) {
        add_folded(&folded.locals[i], buffer_part(&s->locals[i]));
    }
    for (i = 0; i < 3; i++) {
        add_folded(&folded.domains[i], buffer_part(&s->domains[i]));
    }
    l->found = &other;
    look_up_all(l, &folded);
    if (l->is_found && l->fault->reason == NULL) {
        l->fault->reason = "the address is there only with its letter case "
                           "folded: make the table by postmap -f";
    }
    l->is_found = 0;
    clear_spellings(&folded);
    buffer_clear(&other);
}

int find_in_table(const cdb *c, part address, buffer *alternative,
                  file_fault *fault)
{
    buffer found = {NULL, 0, 0, 0};
    lookup l = {NULL, {NULL, 0, 0, 0}, NULL, 0, NULL};
    spellings s;

    memset(&s, 0, sizeof s);
    l.table = c;
    l.found = &found;
    l.fault = fault;
    add_spellings(&s, address);
    look_up_all(&l, &s);
    if (!l.is_found && fault->reason == NULL) {
        look_up_folded(&l, &s);
    }
    if (fault->reason == NULL && !cdb_is_unchanged(c)) {
        fault->reason = "it changes while it is read";
    }
    if (l.is_found && fault->reason == NULL) {
        buffer_add(alternative, buffer_part(&found));
    }
    clear_spellings(&s);
    buffer_clear(&found);
    buffer_clear(&l.value);
    return l.is_found && fault->reason == NULL;
}

/* Whether a key is looked up however the address is typed: its local part is in
 * NFC, its domain in U-labels or A-labels. */
static int is_looked_up(part key)
{
    part local = local_part_of(key);
    part domain = domain_of(key);
    spellings s;
    int is;

    memset(&s, 0, sizeof s);
    add_spellings(&s, key);
    is = part_equal(local, buffer_part(&s.locals[1]))
        && (part_equal(domain, buffer_part(&s.domains[1]))
            || part_equal(domain, buffer_part(&s.domains[2])));
    clear_spellings(&s);
    return is;
}

/* What is wrong with a record, another entry for the same address that differs
 * among it. */
static const char *check_record(const cdb *c, part key, part value)
{
    buffer alternative = {NULL, 0, 0, 0};
    file_fault fault = {0, NULL};
    const char *reason = NULL;

    if (!is_address(key)) {
        reason = "a key is not an address";
    } else if (part_is_ascii(key)) {
        reason = "a key is an ASCII address: it goes out as it is";
    } else if (!is_ascii_address(value)) {
        reason = "a value is not an ASCII address";
    } else if (!is_looked_up(key)) {
        reason = "a key is not in NFC, or its domain not in small letters";
    } else if (!find_in_table(c, key, &alternative, &fault)) {
        reason = fault.reason != NULL ? fault.reason
                                      : "a key that is not found again";
    }
    buffer_clear(&alternative);
    return reason;
}

size_t check_table(const cdb *c, file_fault *fault)
{
    buffer key = {NULL, 0, 0, 0};
    buffer value = {NULL, 0, 0, 0};
    uint32_t at = CDB_FIRST;
    size_t count = 0;

    while (fault->reason == NULL
           && cdb_next(c, &at, &key, &value, &fault->reason) == CDB_FOUND) {
        count++;
        fault->line = count;
        fault->reason = check_record(c, without_nul(buffer_part(&key)),
                                     without_nul(buffer_part(&value)));
    }
    buffer_clear(&key);
    buffer_clear(&value);
    return count;
}
