/*
 * hennelaku-mailbox - make a stored message one for programs that know only ASCII
 *
 * Reads a message from standard input, downgrades its header by RFC 6857 with
 * libhennelaku, and writes the message to standard output. Nothing is written
 * before all is read, and nothing where it exits with another status than 0. Its
 * manual page is hennelaku-mailbox(1).
 */
#define _XOPEN_SOURCE 700

#include <errno.h>
#include <signal.h>
#include <stdio.h>
#include <string.h>
#include <unistd.h>

#include "hennelaku.h"
#include "lines.h"
#include "message.h"
#include "surrogate.h"

/* Exit statuses of sysexits.h. */
enum {
    STATUS_WRITTEN = 0,
    STATUS_REFUSED = 65,
    STATUS_LATER = 75
};

/* Dovecot gives a filter 10 seconds, and ends badly where it takes longer. */
#define DEFAULT_SECONDS 8

#define USAGE "usage: hennelaku-mailbox [--surrogate] [-t SECONDS]"

typedef struct settings {
    int surrogate;
    unsigned seconds;
} settings;

/* A message, taken apart as it came. */
typedef struct message {
    part from_line;  /* of an mbox, with its end; may be empty */
    part header;
    part rest;       /* the empty line and the body; may be empty */
    part whole;      /* header and rest */
    int has_crlf;    /* its first line ends in CRLF */
} message;

static void print_help(void)
{
    puts(USAGE "\n"
         "Makes a stored message one for programs that know only ASCII, by "
         "RFC 6857: reads it from\n"
         "standard input and writes it to standard output.\n"
         "  --surrogate  a message that cannot be downgraded goes out "
         "attached to one in ASCII\n"
         "  -t SECONDS   give up after so many seconds; 8 where not said\n"
         "  --help       this text\n"
         "  --version    the version\n"
         "Exit status: 0 written, 65 refused, 75 anything else; nothing is "
         "written unless it is 0.");
}

static void end_late(int signal_number)
{
    static const char text[] = "hennelaku-mailbox: no end within its time\n";
    ssize_t written = write(STDERR_FILENO, text, sizeof text - 1);

    (void)signal_number;
    (void)written;
    _exit(STATUS_LATER);
}

/* Whatever it waits for, the process ends after so many seconds. */
static void limit_time(unsigned seconds)
{
    struct sigaction action;

    memset(&action, 0, sizeof action);
    action.sa_handler = end_late;
    sigemptyset(&action.sa_mask);
    sigaction(SIGALRM, &action, NULL);
    alarm(seconds);
}

static int tell(int status, const char *reason)
{
    fprintf(stderr, "hennelaku-mailbox: %s\n", reason);
    return status;
}

/* The place after the line at `at`, which an LF ends. */
static size_t after_line(part p, size_t at)
{
    const uint8_t *lf = at < p.len ? memchr(p.bytes + at, '\n', p.len - at)
                                   : NULL;

    return lf == NULL ? p.len : (size_t)(lf - p.bytes) + 1;
}

static int is_empty_line(part p, size_t at)
{
    return at < p.len
        && (p.bytes[at] == '\n'
            || (p.bytes[at] == '\r' && at + 1 < p.len
                && p.bytes[at + 1] == '\n'));
}

static void take_apart(part all, message *m)
{
    size_t start = 0;
    size_t end;

    end = after_line(all, 0);
    m->has_crlf = end >= 2 && all.bytes[end - 2] == '\r';
    if (all.len >= 5 && memcmp(all.bytes, "From ", 5) == 0) {
        start = end;
    }
    m->from_line = part_between(all, 0, start);
    for (end = start; end < all.len && !is_empty_line(all, end);
         end = after_line(all, end)) {
    }
    m->header = part_between(all, start, end);
    m->rest = part_between(all, end, all.len);
    m->whole = part_between(all, start, all.len);
}

/* Adds a text whose lines end in CRLF, each with the end that the message's
 * lines have. */
static void add_with_ends(buffer *to, part text, int has_crlf)
{
    size_t at = 0;

    while (!has_crlf && at < text.len) {
        size_t end = next_crlf(text, at);

        buffer_add(to, part_between(text, at, end));
        if (end < text.len) {
            buffer_add_byte(to, '\n');
            end += 2;
        }
        at = end;
    }
    buffer_add(to, part_between(text, at, text.len));
}

/* Adds why a header is refused, in printable ASCII: the number and its meaning,
 * line and byte from 0, and the line. */
static void add_reason(buffer *to, part header, hennelaku_mailbox_answer a)
{
    part_line l;

    buffer_add_text(to, "refused by ");
    buffer_add_number(to, a.number);
    buffer_add_text(to, ": ");
    if (a.number == HENNELAKU_TOO_LONG) {
        buffer_add_text(to, "the header has ");
        buffer_add_number(to, header.len);
        buffer_add_text(to, " bytes, and at most ");
        buffer_add_number(to, HENNELAKU_MAX_HEADER);
        buffer_add_text(to, " are taken");
        return;
    }
    buffer_add_text(to, a.number == HENNELAKU_HELD
                        ? "a held header field holds non-ASCII"
                        : hennelaku_number_text(a.number));
    buffer_add_text(to, "; line ");
    buffer_add_number(to, a.place);
    buffer_add_text(to, " and byte ");
    buffer_add_number(to, a.offset);
    buffer_add_text(to, " of the header, from 0");
    if (find_line(header, a.offset, &l)) {
        buffer_add_text(to, ": \"");
        add_quoted(to, l.text, MAX_QUOTED);
        buffer_add_text(to, "\"");
    }
}

/* Puts the header that goes out, its lines ended by CRLF, into *out. */
static hennelaku_mailbox_answer downgrade_header(part header, buffer *out)
{
    hennelaku_mailbox_answer a = {HENNELAKU_HEADER_ROOM, 0, 0, 0};

    if (buffer_reserve(out, HENNELAKU_HEADER_ROOM_MAX)) {
        a = hennelaku_downgrade_mailbox(header.bytes, header.len, out->bytes,
                                        out->room);
        out->len = a.length;
    }
    return a;
}

/* The numbers that are about the header; any other is a fault. */
static int is_refusal(uint32_t number)
{
    return number == HENNELAKU_TOO_LONG || number == HENNELAKU_HEADER_LINE
        || number == HENNELAKU_HELD;
}

/* Puts the message that goes out into *out, and returns the exit status. */
static int convert(const settings *s, const message *m, buffer *out)
{
    buffer header = {NULL, 0, 0, 0};
    buffer outgoing = {NULL, 0, 0, 0};
    buffer reason = {NULL, 0, 0, 0};
    hennelaku_mailbox_answer a;
    int status = STATUS_WRITTEN;

    add_with_crlf(&header, m->header);
    a = downgrade_header(buffer_part(&header), &outgoing);
    if (header.failed || outgoing.failed) {
        status = STATUS_LATER;
        buffer_add_text(&reason, "no memory");
    } else if (a.number != HENNELAKU_OK) {
        status = is_refusal(a.number) ? STATUS_REFUSED : STATUS_LATER;
        add_reason(&reason, buffer_part(&header), a);
    }
    buffer_add(out, m->from_line);
    if (status == STATUS_REFUSED && s->surrogate) {
        status = STATUS_WRITTEN;
        outgoing.len = 0;
        add_surrogate(&outgoing, buffer_part(&header), m->whole,
                      buffer_part(&reason));
        add_with_ends(out, buffer_part(&outgoing), m->has_crlf);
    } else {
        add_with_ends(out, buffer_part(&outgoing), m->has_crlf);
        buffer_add(out, m->rest);
    }
    if (status != STATUS_WRITTEN) {
        buffer_add_byte(&reason, '\0');
        tell(status, reason.failed ? "no memory"
                                   : (const char *)reason.bytes);
    }
    buffer_clear(&header);
    buffer_clear(&outgoing);
    buffer_clear(&reason);
    return status;
}

static int write_all(part p)
{
    size_t at = 0;

    while (at < p.len) {
        ssize_t n = write(STDOUT_FILENO, p.bytes + at, p.len - at);

        if (n < 0 && errno != EINTR) {
            return tell(STATUS_LATER, strerror(errno));
        }
        at += n > 0 ? (size_t)n : 0;
    }
    return STATUS_WRITTEN;
}

/* A header in ASCII needs nothing: such a message goes out just as it came. */
static int handle(const settings *s, part all)
{
    buffer out = {NULL, 0, 0, 0};
    message m;
    int status;

    take_apart(all, &m);
    if (part_is_ascii(m.header)) {
        return write_all(all);
    }
    status = convert(s, &m, &out);
    if (status == STATUS_WRITTEN) {
        status = out.failed ? tell(STATUS_LATER, "no memory")
                            : write_all(buffer_part(&out));
    }
    buffer_clear(&out);
    return status;
}

static int handle_input(const settings *s)
{
    buffer all = {NULL, 0, 0, 0};
    int status;

    switch (read_all(stdin, MAX_MESSAGE, &all)) {
    case READ_DONE:
        status = handle(s, buffer_part(&all));
        break;
    case READ_TOO_LONG:
        status = tell(STATUS_REFUSED, "the message is too large");
        break;
    case READ_FAILED:
        status = tell(STATUS_LATER, strerror(errno));
        break;
    default:
        status = tell(STATUS_LATER, "no memory");
        break;
    }
    buffer_clear(&all);
    return status;
}

/* A number from 1 to 3600. */
static int read_seconds(const char *text, unsigned *seconds)
{
    *seconds = 0;
    for (; *text >= '0' && *text <= '9' && *seconds <= 3600; text++) {
        *seconds = *seconds * 10 + (unsigned)(*text - '0');
    }
    return *text == '\0' && *seconds >= 1 && *seconds <= 3600;
}

static int read_settings(settings *s, int argc, char **argv)
{
    int i;

    s->surrogate = 0;
    s->seconds = DEFAULT_SECONDS;
    for (i = 1; i < argc; i++) {
        if (strcmp(argv[i], "--surrogate") == 0) {
            s->surrogate = 1;
        } else if (strcmp(argv[i], "-t") == 0 && i + 1 < argc
                   && read_seconds(argv[i + 1], &s->seconds)) {
            i++;
        } else {
            return 0;
        }
    }
    return 1;
}

int main(int argc, char **argv)
{
    settings s;

    signal(SIGPIPE, SIG_IGN);
    if (argc == 2 && strcmp(argv[1], "--help") == 0) {
        print_help();
        return STATUS_WRITTEN;
    }
    if (argc == 2 && strcmp(argv[1], "--version") == 0) {
        puts("hennelaku-mailbox " HENNELAKU_VERSION_TEXT);
        return STATUS_WRITTEN;
    }
    if (!read_settings(&s, argc, argv)) {
        return tell(STATUS_LATER, USAGE);
    }
    if (hennelaku_version() != HENNELAKU_VERSION) {
        return tell(STATUS_LATER, "the library is of another version");
    }
    limit_time(s.seconds);
    return handle_input(&s);
}
