#include "refusal.h"

#include <string.h>

#include "lines.h"

/* Limits of the scope paper. */
#define MAX_HEADER_LINE 998
#define MAX_FIELD_NAME 76

/* So many columns of a line are told. */
#define MAX_TOLD 60

/* `the WHAT has FOUND bytes, and at most LIMIT may be there` */
static void add_limit(buffer *to, const char *what, size_t found, size_t limit)
{
    buffer_add_text(to, "the ");
    buffer_add_text(to, what);
    buffer_add_text(to, " has ");
    buffer_add_number(to, found);
    buffer_add_text(to, " bytes; at most ");
    buffer_add_number(to, limit);
    buffer_add_text(to, " can be downgraded");
}

/* The length of what stands before the colon, or of all. */
static size_t name_len(part line)
{
    const uint8_t *colon = line.len == 0 ? NULL
                         : memchr(line.bytes, ':', line.len);

    return colon == NULL ? line.len : (size_t)(colon - line.bytes);
}

/* The rule that the byte at `at` of a malformed line breaks. */
static void add_line_rule(buffer *to, part line, size_t at)
{
    int goes_on = line.len > 0
        && (line.bytes[0] == ' ' || line.bytes[0] == '\t');

    if (line.len > MAX_HEADER_LINE && at + 4 > MAX_HEADER_LINE) {
        add_limit(to, "line", line.len, MAX_HEADER_LINE);
    } else if (!goes_on && at <= name_len(line)
               && name_len(line) > MAX_FIELD_NAME && at >= MAX_FIELD_NAME) {
        add_limit(to, "field's name", name_len(line), MAX_FIELD_NAME);
    } else if (at < line.len && line.bytes[at] == 0) {
        buffer_add_text(to, "a header line may hold no NUL");
    } else if (at > 0 && at <= line.len && line.bytes[at - 1] == '\r') {
        buffer_add_text(to, "a CR may stand only at a line's end");
    } else if (!goes_on && at <= name_len(line)) {
        buffer_add_text(to, "a header line is a field's name in ASCII and a "
                        "colon, or starts with a space or TAB");
    } else {
        buffer_add_text(to, "the text is not UTF-8");
    }
}

static void add_place(buffer *to, const part_line *l, size_t at)
{
    buffer_add_text(to, "header line ");
    buffer_add_number(to, l->number + 1);
    buffer_add_text(to, ", byte ");
    buffer_add_number(to, at + 1);
    buffer_add_text(to, ", \"");
    add_readable(to, l->text, MAX_TOLD);
    buffer_add_text(to, "\": ");
}

void add_header_refusal(buffer *to, part header, hennelaku_answer answer)
{
    part_line l;
    size_t at;

    if (answer.number == HENNELAKU_TOO_LONG) {
        add_limit(to, "header", header.len, HENNELAKU_MAX_HEADER);
        return;
    }
    if (!find_line(header, answer.offset, &l)) {
        buffer_add_text(to, hennelaku_number_text(answer.number));
        return;
    }
    at = answer.offset - l.start;
    add_place(to, &l, at);
    if (answer.number == HENNELAKU_HEADER_LINE) {
        add_line_rule(to, l.text, at);
    } else {
        buffer_add_text(to, hennelaku_smtp_reply(answer.number).text);
    }
}

const char *header_remedy(hennelaku_answer answer)
{
    switch (answer.number) {
    case HENNELAKU_TOO_LONG:
        return "take header fields off, and send it again";
    case HENNELAKU_HEADER_LINE:
        return "mend the line, and send it again";
    default:
        return "write the field in ASCII or take it off, and send it again";
    }
}
