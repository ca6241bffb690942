#include "listing.h"

#include <stdio.h>
#include <string.h>

#include "show.h"

/* The first columns of a table; the file's name has what is left. */
#define DATE_COLUMNS 22
#define LEAST_COLUMNS 12

enum { DATE, SENDER, RECIPIENT, SUBJECT, CELLS };

static const char *const headings[CELLS] = {"date", "from", "to", "subject"};

/* `2026-02-02 18:00 +0200` for a date of RFC 5322, without its day of the week
 * and its seconds. Returns 0 where it is none. */
static int add_date(buffer *to, const char *text)
{
    static const char months[] = "janfebmaraprmayjunjulaugsepoctnovdec";
    const char *start = text + strcspn(text, "0123456789");
    const char *found;
    char month[4];
    char zone[6] = "";
    char date[40];
    int day, year, hour, minute, end = 0, i;

    if (sscanf(start, "%2d %3[A-Za-z] %4d %2d:%2d%n", &day, month, &year,
               &hour, &minute, &end) != 5 || end == 0) {
        return 0;
    }
    start += end;
    end = 0;
    sscanf(start, ":%*2d%n", &end);
    sscanf(start + end, " %5[-+0-9A-Za-z]", zone);
    for (i = 0; month[i] != '\0'; i++) {
        month[i] = (char)(month[i] | 0x20);
    }
    found = strstr(months, month);
    if (strlen(month) != 3 || found == NULL || (found - months) % 3 != 0) {
        return 0;
    }
    snprintf(date, sizeof date, "%04d-%02d-%02d %02d:%02d%s%s", year,
             (int)(found - months) / 3 + 1, day, hour, minute,
             zone[0] == '\0' ? "" : " ", zone);
    buffer_add_text(to, date);
    return 1;
}

/* Puts a cell of the table into l->cell. Sender and recipient are those that
 * the message had before it was downgraded, where it says so. */
static void make_cell(listing *l, int which)
{
    const read_fields *r = &l->read;
    buffer *c = &l->cell;

    c->len = 0;
    switch (which) {
    case DATE:
        l->text.len = 0;
        add_field_text(&l->text, r, "Date");
        buffer_add_byte(&l->text, '\0');
        if (!l->text.failed && !add_date(c, (const char *)l->text.bytes)) {
            buffer_add(c, part_between(buffer_part(&l->text), 0,
                                       l->text.len - 1));
        }
        break;
    case SENDER:
        (void)(add_field_text(c, r, "Downgraded-From")
               || add_old_path(c, r, "Downgraded-Mail-From")
               || add_field_text(c, r, "From"));
        break;
    case RECIPIENT:
        (void)(add_old_path(c, r, "Downgraded-Rcpt-To")
               || add_field_text(c, r, "Downgraded-To")
               || add_field_text(c, r, "To"));
        break;
    default:
        (void)(add_field_text(c, r, "Subject")
               || add_field_text(c, r, "Downgraded-Subject"));
        break;
    }
}

/* Adds the file's name, with the message's number where it has several. */
static void add_file(buffer *to, const listed *m)
{
    add_shown(to, m->file);
    if (m->number > 0) {
        buffer_add_byte(to, ':');
        buffer_add_number(to, m->number);
    }
}

/* Adds a refused field with its reason. No name begins with `!`. */
static void add_refused(buffer *to, const read_field *f)
{
    buffer_add_text(to, "! ");
    add_shown(to, f->name);
    buffer_add_text(to, ": refused by ");
    buffer_add_number(to, f->number);
    buffer_add_text(to, ": ");
    buffer_add_text(to, read_reason(f->number));
    buffer_add_text(to, "\n");
}

static void add_field(listing *l, const listed *m, const read_field *f)
{
    if (l->names_files) {
        add_file(&l->out, m);
        buffer_add_text(&l->out, ": ");
    }
    if (f->number != HENNELAKU_READ_TEXT) {
        add_refused(&l->out, f);
    } else {
        add_shown(&l->out, f->name);
        buffer_add_text(&l->out, ": ");
        add_shown(&l->out, f->text);
        buffer_add_text(&l->out, "\n");
    }
}

static void add_json_field(listing *l, const read_field *f, int is_first)
{
    buffer_add_text(&l->out, is_first ? "{\"name\":" : ",{\"name\":");
    add_json(&l->out, f->name);
    if (f->number != HENNELAKU_READ_TEXT) {
        buffer_add_text(&l->out, ",\"refused\":");
        buffer_add_number(&l->out, f->number);
        buffer_add_text(&l->out, ",\"reason\":");
        add_json(&l->out, part_of(read_reason(f->number)));
    } else {
        buffer_add_text(&l->out, ",\"text\":");
        add_json(&l->out, f->text);
    }
    buffer_add_text(&l->out, "}");
}

/* Adds each Downgraded- field in the listing's form; of a table only those that
 * are refused are told. */
static void add_fields(listing *l, const listed *m)
{
    size_t at;

    for (at = 0; at < l->read.count; at++) {
        read_field f = read_at(&l->read, at);

        l->refused += f.number != HENNELAKU_READ_TEXT;
        if (l->form == LISTING_FIELDS) {
            add_field(l, m, &f);
        } else if (l->form == LISTING_JSON) {
            add_json_field(l, &f, at == 0);
        } else if (f.number != HENNELAKU_READ_TEXT) {
            add_file(&l->told, m);
            buffer_add_text(&l->told, ": ");
            add_refused(&l->told, &f);
        }
    }
}

static size_t cell_columns(const listing *l, int which)
{
    size_t quarter = l->columns > DATE_COLUMNS
                   ? (l->columns - DATE_COLUMNS) / 4 : 0;

    return which == DATE ? DATE_COLUMNS
         : quarter > LEAST_COLUMNS + 2 ? quarter - 2 : LEAST_COLUMNS;
}

void add_heading(listing *l)
{
    int which;

    for (which = 0; which < CELLS; which++) {
        add_shown_in(&l->out, part_of(headings[which]),
                     cell_columns(l, which));
        buffer_add_text(&l->out, "  ");
    }
    buffer_add_text(&l->out, "file\n");
}

static void add_row(listing *l, const listed *m)
{
    int which;

    for (which = 0; which < CELLS; which++) {
        make_cell(l, which);
        if (l->form == LISTING_TABLE) {
            add_shown_in(&l->out, buffer_part(&l->cell),
                         cell_columns(l, which));
            buffer_add_text(&l->out, "  ");
        } else {
            add_shown(&l->out, buffer_part(&l->cell));
            buffer_add_text(&l->out, "\t");
        }
    }
    add_file(&l->out, m);
    buffer_add_text(&l->out, "\n");
}

static void add_object(listing *l, const listed *m)
{
    int which;

    buffer_add_text(&l->out, "{\"file\":");
    add_json(&l->out, m->file);
    if (m->number > 0) {
        buffer_add_text(&l->out, ",\"message\":");
        buffer_add_number(&l->out, m->number);
    }
    for (which = 0; which < CELLS; which++) {
        make_cell(l, which);
        buffer_add_text(&l->out, ",\"");
        buffer_add_text(&l->out, headings[which]);
        buffer_add_text(&l->out, "\":");
        add_json(&l->out, buffer_part(&l->cell));
    }
    buffer_add_text(&l->out, ",\"fields\":[");
    add_fields(l, m);
    buffer_add_text(&l->out, "]}\n");
}

int add_message(listing *l, const listed *m)
{
    if (!read_downgraded(&l->read, m->header)) {
        return 0;
    }
    switch (l->form) {
    case LISTING_FIELDS:
        add_fields(l, m);
        break;
    case LISTING_TABLE:
    case LISTING_TABS:
        add_row(l, m);
        add_fields(l, m);
        break;
    case LISTING_JSON:
        add_object(l, m);
        break;
    }
    return !l->out.failed && !l->told.failed && !l->text.failed
        && !l->cell.failed;
}

void listing_clear(listing *l)
{
    buffer_clear(&l->out);
    buffer_clear(&l->told);
    buffer_clear(&l->text);
    buffer_clear(&l->cell);
    read_fields_clear(&l->read);
}
