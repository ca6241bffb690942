#include "lines.h"

#include <string.h>

#include "characters.h"

size_t next_crlf(part p, size_t at)
{
    while (at < p.len) {
        const uint8_t *lf = memchr(p.bytes + at, '\n', p.len - at);
        size_t place = lf == NULL ? p.len : (size_t)(lf - p.bytes);

        if (place > at && place < p.len && p.bytes[place - 1] == '\r') {
            return place - 1;
        }
        at = place + 1;
    }
    return p.len;
}

int find_line(part p, size_t offset, part_line *found)
{
    found->number = 0;
    found->start = 0;
    while (found->start < p.len) {
        size_t end = next_crlf(p, found->start);

        if (end == p.len || offset < end + 2) {
            found->text.bytes = p.bytes + found->start;
            found->text.len = end - found->start;
            found->has_crlf = end < p.len;
            return 1;
        }
        found->start = end + 2;
        found->number++;
    }
    return 0;
}

size_t count_lines(part p)
{
    size_t count = 0;
    size_t at = next_crlf(p, 0);

    while (at < p.len) {
        count++;
        at = next_crlf(p, at + 2);
    }
    return count;
}

/* The length of the character at `at`; 1 for a byte that belongs to none. */
static size_t character_len(part p, size_t at)
{
    uint32_t number;
    size_t len = character_at(p, at, &number);

    return len == 0 ? 1 : len;
}

size_t character_column(part text, size_t at)
{
    size_t column = 1;
    size_t i = 0;

    while (i < at) {
        i += i < text.len ? character_len(text, i) : 1;
        if (i <= at) {
            column++;
        }
    }
    return column;
}

/* Characters past ASCII that a reader does not see, or that change the order in
 * which others are seen: from the first of each row to its last. */
static const uint32_t hidden[][2] = {
    {0x80, 0xA0},        /* C1 controls, no-break space */
    {0xAD, 0xAD},        /* soft hyphen */
    {0x34F, 0x34F},      /* combining grapheme joiner */
    {0x61C, 0x61C},      /* Arabic letter mark */
    {0x115F, 0x1160},    /* Hangul fillers */
    {0x17B4, 0x17B5},    /* Khmer inherent vowels */
    {0x180B, 0x180F},    /* Mongolian variation selectors */
    {0x2000, 0x200F},    /* spaces, zero width, left-to-right marks */
    {0x2028, 0x202F},    /* line separators, embeddings and overrides */
    {0x205F, 0x206F},    /* invisible operators, isolates */
    {0x3000, 0x3000},    /* ideographic space */
    {0x3164, 0x3164},    /* Hangul filler */
    {0xE000, 0xF8FF},    /* private use */
    {0xFE00, 0xFE0F},    /* variation selectors */
    {0xFEFF, 0xFEFF},    /* byte order mark */
    {0xFFA0, 0xFFA0},    /* halfwidth Hangul filler */
    {0xFFF0, 0xFFFF},    /* specials */
    {0xE0000, 0x10FFFF}  /* tags, variation selectors, private use */
};

static int is_hidden(uint32_t c)
{
    size_t i;

    for (i = 0; i < sizeof hidden / sizeof hidden[0]; i++) {
        if (c >= hidden[i][0] && c <= hidden[i][1]) {
            return 1;
        }
    }
    return 0;
}

/* How many columns a quoted byte takes: \xNN for one that is not printable
 * ASCII, a backslash before " and \. */
static size_t quoted_width(uint8_t c)
{
    return c == '"' || c == '\\' ? 2 : c >= 32 && c <= 126 ? 1 : 4;
}

/* Spells a byte so. */
static void spell(uint8_t c, char spelling[5])
{
    static const char hex[] = "0123456789abcdef";
    size_t width = quoted_width(c);
    size_t i = 0;

    if (width > 1) {
        spelling[i++] = '\\';
    }
    if (width == 4) {
        spelling[i++] = 'x';
        spelling[i++] = hex[c >> 4];
        spelling[i++] = hex[c & 15];
    } else {
        spelling[i++] = (char)c;
    }
    spelling[i] = '\0';
}

void add_quoted(buffer *b, part p, size_t columns)
{
    char spelling[5];
    size_t i;

    for (i = 0; i < p.len; i++) {
        if (quoted_width(p.bytes[i]) > columns) {
            buffer_add_text(b, "...");
            return;
        }
        columns -= quoted_width(p.bytes[i]);
        spell(p.bytes[i], spelling);
        buffer_add_text(b, spelling);
    }
}

/* Spells the character at `at`, and says how many bytes it has. */
static size_t spell_readable(part p, size_t at, char spelling[16])
{
    uint32_t c;
    size_t len = character_at(p, at, &c);

    if (len < 2) {
        len = 1;
        spell(p.bytes[at], spelling);
    } else if (is_hidden(c)) {
        snprintf(spelling, 16, "\\u{%X}", (unsigned)c);
    } else {
        memcpy(spelling, p.bytes + at, len);
        spelling[len] = '\0';
    }
    return len;
}

void add_readable(buffer *b, part p, size_t columns)
{
    char spelling[16];
    size_t i = 0;

    while (i < p.len) {
        size_t len = spell_readable(p, i, spelling);
        size_t width = len > 1 && spelling[0] != '\\' ? 1
                                                       : strlen(spelling);

        if (width > columns) {
            buffer_add_text(b, "...");
            return;
        }
        columns -= width;
        buffer_add_text(b, spelling);
        i += len;
    }
}

/* The bytes around `at` that MAX_QUOTED allows, on both sides alike as far as
 * the text goes: from *from on, before *to. */
static void find_window(part text, size_t at, size_t *from, size_t *to)
{
    size_t left = MAX_QUOTED;
    int grown = 1;

    *from = *to = at;
    while (grown) {
        grown = 0;
        if (*to < text.len && quoted_width(text.bytes[*to]) <= left) {
            left -= quoted_width(text.bytes[*to]);
            ++*to;
            grown = 1;
        }
        if (*from > 0 && quoted_width(text.bytes[*from - 1]) <= left) {
            --*from;
            left -= quoted_width(text.bytes[*from]);
            grown = 1;
        }
    }
}

void print_marked(FILE *out, const part_line *l, size_t at)
{
    size_t shown = at < l->text.len ? at : l->text.len;
    size_t column = 1;
    char spelling[5];
    size_t from;
    size_t to;
    size_t i;

    find_window(l->text, shown, &from, &to);
    if (from > 0) {
        fputs("...", out);
        column += 3;
    }
    fputc('"', out);
    for (i = from; i < to; i++) {
        spell(l->text.bytes[i], spelling);
        fputs(spelling, out);
        if (i < shown) {
            column += quoted_width(l->text.bytes[i]);
        }
    }
    fputs(to < l->text.len ? "\"...\n" : "\"\n", out);
    fprintf(out, "%*s^%s\n", (int)column, "",
            at < l->text.len ? ""
            : !l->has_crlf ? " the end of the line"
            : at == l->text.len ? " the CR at the end of the line"
            : " the LF at the end of the line");
}

