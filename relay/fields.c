#include "fields.h"

#include <string.h>

#include "lines.h"

static int is_blank(uint8_t c)
{
    return c == ' ' || c == '\t';
}

const char *read_reason(uint32_t number)
{
    switch (number) {
    case HENNELAKU_READ_FIELD:
        return "the field is malformed";
    case HENNELAKU_READ_WORD:
        return "an encoded word is malformed, or of another encoding than Q "
               "and B";
    case HENNELAKU_READ_CHARSET:
        return "an encoded word has another charset than UTF-8";
    case HENNELAKU_READ_UTF8:
        return "the bytes of an encoded word are not UTF-8";
    default:
        return "not an answer of this library";
    }
}

/* The front of a field, up to its colon, a blank or the end of its line. */
static part name_of(part field)
{
    size_t len = 0;

    while (len < field.len && field.bytes[len] != ':'
           && !is_blank(field.bytes[len]) && field.bytes[len] != '\r'
           && field.bytes[len] != '\n') {
        len++;
    }
    return part_between(field, 0, len);
}

/* Reads the first Downgraded- field that begins at a place or later, and adds
 * its text. Its number is HENNELAKU_READ_NONE where there is none, and where
 * there is no memory, which `to` then says. */
static hennelaku_read_answer read_next(buffer *to, part header, size_t place)
{
    hennelaku_read_answer a = {HENNELAKU_READ_NONE, 0, 0, 0};

    /* No text is longer than its header. */
    if (buffer_reserve(to, header.len - place)) {
        a = hennelaku_read_downgraded(header.bytes, header.len, place,
                                      to->bytes + to->len,
                                      to->room - to->len);
        to->len += a.number == HENNELAKU_READ_TEXT ? a.length : 0;
    }
    return a;
}

/* A field of a header that was read. */
typedef struct read_place {
    uint32_t number;
    size_t start;
    size_t end;
    size_t text;   /* where its text begins in the texts */
    size_t len;
} read_place;

int read_downgraded(read_fields *r, part header)
{
    hennelaku_read_answer a;
    size_t at = 0;

    r->texts.len = 0;
    r->places.len = 0;
    r->count = 0;
    r->header = header;
    do {
        read_place p = {0, 0, 0, r->texts.len, 0};
        part bytes = {(const uint8_t *)&p, sizeof p};

        a = read_next(&r->texts, header, at);
        if (a.number != HENNELAKU_READ_NONE) {
            p.number = a.number;
            p.start = a.start;
            p.end = a.next;
            p.len = r->texts.len - p.text;
            buffer_add(&r->places, bytes);
            r->count++;
            at = a.next;
        }
    } while (a.number != HENNELAKU_READ_NONE);
    return !r->texts.failed && !r->places.failed;
}

read_field read_at(const read_fields *r, size_t at)
{
    read_place p;
    read_field f;

    memcpy(&p, r->places.bytes + at * sizeof p, sizeof p);
    f.number = p.number;
    f.name = name_of(part_between(r->header, p.start, p.end));
    f.text = part_between(buffer_part(&r->texts), p.text, p.text + p.len);
    return f;
}

void read_fields_clear(read_fields *r)
{
    buffer_clear(&r->texts);
    buffer_clear(&r->places);
    r->count = 0;
}

int begins_field(part header, size_t at, part name)
{
    return header.len - at > name.len && header.bytes[at + name.len] == ':'
        && part_equal_in_any_case(part_between(header, at, at + name.len),
                                  name);
}

int find_field(part header, part name, part *field)
{
    size_t start = 0;
    int found = 0;

    while (start < header.len && !found) {
        size_t end = start;

        do {
            end = next_crlf(header, end);
            end = end == header.len ? end : end + 2;
        } while (end < header.len && is_blank(header.bytes[end]));
        found = begins_field(header, start, name);
        *field = part_between(header, start, end);
        start = end;
    }
    return found;
}

/* Adds the value of a field without blanks at its front and without its folds
 * and its last CRLF. */
static void add_unfolded(buffer *to, part field, size_t at)
{
    size_t i = at;

    while (i < field.len && is_blank(field.bytes[i])) {
        i++;
    }
    for (; i < field.len; i++) {
        if (i + 1 < field.len && field.bytes[i] == '\r'
            && field.bytes[i + 1] == '\n') {
            i++;
        } else {
            buffer_add_byte(to, field.bytes[i]);
        }
    }
}

/* Adds the text of a field of any name as the library reads it. Returns 0 where
 * it does not. */
static int add_read(buffer *to, part field)
{
    buffer as_downgraded = {NULL, 0, 0, 0};
    hennelaku_read_answer a = {HENNELAKU_READ_NONE, 0, 0, 0};

    /* The library reads fields of such names alone. */
    buffer_add_text(&as_downgraded, "Downgraded-");
    buffer_add(&as_downgraded, field);
    if (!as_downgraded.failed) {
        a = read_next(to, buffer_part(&as_downgraded), 0);
    }
    buffer_clear(&as_downgraded);
    return a.number == HENNELAKU_READ_TEXT;
}

/* Adds the text of the first of the fields that has a name. Returns 0 where
 * there is none, and where it was refused. */
static int add_read_before(buffer *to, const read_fields *r, part name)
{
    size_t at;

    for (at = 0; at < r->count; at++) {
        read_field f = read_at(r, at);

        if (part_equal_in_any_case(f.name, name)) {
            buffer_add(to, f.text);
            return f.number == HENNELAKU_READ_TEXT;
        }
    }
    return 0;
}

int add_field_text(buffer *to, const read_fields *r, const char *name)
{
    part named = part_of(name);
    part field;

    if (add_read_before(to, r, named)) {
        return 1;
    }
    if (!find_field(r->header, named, &field)) {
        return 0;
    }
    if (!add_read(to, field)) {
        add_unfolded(to, field, named.len + 1);
    }
    return 1;
}

/* The place of the blank before the second `<` of `<old <new>>`, or text.len: a
 * quoted local part may hold such bytes too. */
static size_t old_path_end(part text)
{
    int is_quoted = 0;
    size_t at;

    for (at = 1; at + 1 < text.len; at++) {
        uint8_t c = text.bytes[at];

        if (!is_quoted && c == ' ' && text.bytes[at + 1] == '<') {
            return at;
        }
        is_quoted = c == '"' ? !is_quoted : is_quoted;
        at += is_quoted && c == '\\' ? 1 : 0;
    }
    return text.len;
}

int add_old_path(buffer *to, const read_fields *r, const char *name)
{
    buffer text = {NULL, 0, 0, 0};
    int found = add_field_text(&text, r, name) && text.len > 0
             && text.bytes[0] == '<';

    if (found) {
        size_t end = old_path_end(buffer_part(&text));

        found = end < text.len;
        buffer_add(to, part_between(buffer_part(&text), 1, found ? end : 1));
    }
    buffer_clear(&text);
    return found;
}
