/*
 * hennelaku - show what an ASCII-only server would be sent for a message
 *
 * Reads a message file: envelope lines, an empty line, the header, and maybe an
 * empty line and the body. Downgrades envelope and header by libhennelaku, and
 * writes the outgoing envelope, DATA, the outgoing header, and as the file has
 * them an empty line and the body. The doubling of leading dots and the closing
 * dot of RFC 5321, section 4.5.2, belong to the connection and are not shown.
 * Its manual page is hennelaku(1).
 */
#include <errno.h>
#include <stdio.h>
#include <string.h>

#include "downgrade.h"
#include "lines.h"
#include "message.h"
#include "queued.h"

/* Exit statuses of sysexits.h. */
enum {
    STATUS_WRITTEN = 0,
    STATUS_USAGE = 64,
    STATUS_REFUSED = 65,
    STATUS_NO_INPUT = 66,
    STATUS_SOFTWARE = 70,
    STATUS_NO_MEMORY = 71,
    STATUS_IO = 74
};

/* A message file, taken apart. */
typedef struct message {
    const char *file;
    uint64_t setting;
    part envelope;
    part header;
    part body;
    int has_body;
} message;

static int print_usage(FILE *out)
{
    fputs("usage: hennelaku [--current] [FILE|-]\n"
          "       " QUEUED_USAGE "\n", out);
    return STATUS_USAGE;
}

static int print_help(void)
{
    print_usage(stdout);
    fputs("Prints what an ASCII-only server would be sent for a message, "
          "downgraded by RFC 5504.\n"
          "A message file has the envelope lines (MAIL FROM:<..>, RCPT "
          "TO:<..>), an empty line,\n"
          "the header, and maybe an empty line and the body. Without FILE, "
          "or for -, standard\n"
          "input is read.\n"
          "  --current  the message is not from the spool: no ALT-ADDRESS "
          "is taken\n"
          "  --help     this text\n"
          "  --version  the version\n"
          "With --from and --to the file has no envelope lines, and is taken "
          "as by hennelaku-pipe:\n"
          "    postcat -q ID -h -b | hennelaku --alternatives FILE --from "
          "SENDER --to RECIPIENT -\n"
          "Exit status: 0 written, 64 wrong usage, 65 refused, 66 no such "
          "file, 70 a fault of the\n"
          "library, 71 no memory, 74 not read or written to the end, 75 would stay "
          "in the queue.\n",
          stdout);
    return STATUS_WRITTEN;
}

/* What an answer means; its input tells the two meanings of 6 apart. */
static const char *meaning(hennelaku_answer answer)
{
    if (answer.number != HENNELAKU_HELD) {
        return hennelaku_number_text(answer.number);
    }
    return answer.input == HENNELAKU_ENVELOPE
        ? "an ORCPT value holds non-ASCII"
        : "a held header field holds non-ASCII";
}

static const char *advice(uint64_t setting, hennelaku_answer answer)
{
    switch (answer.number) {
    case HENNELAKU_TOO_LONG:
        return answer.input == HENNELAKU_ENVELOPE
            ? "send to fewer recipients at once"
            : "take fields off that need not go out";
    case HENNELAKU_ENVELOPE_LINE:
        return "an envelope is a line MAIL FROM:<address> and 1 to 100 lines "
               "RCPT TO:<address>,\n    parameters after one space each";
    case HENNELAKU_NO_ALT_ADDRESS:
        return setting != HENNELAKU_SPOOL
            ? "name an ASCII address, or send by servers that know SMTPUTF8"
            : "add a space and ALT-ADDRESS= with the owner's ASCII address, "
              "as xtext, to the line";
    case HENNELAKU_BAD_ALT_ADDRESS:
        return "take ALT-ADDRESS off a line with an ASCII address; beside "
               "another, give an ASCII\n    address as xtext (+ is +2B, = is "
               "+3D)";
    case HENNELAKU_ALT_ADDRESS_RETIRED:
        return "take ALT-ADDRESS off the line, or --current off the command "
               "for a message from the spool";
    case HENNELAKU_HEADER_LINE:
        return "a header line is a name, a colon and UTF-8, or goes on after "
               "a space or TAB; it has at\n    most 998 bytes, its name 76, "
               "and no NUL or CR";
    case HENNELAKU_HELD:
        return answer.input == HENNELAKU_ENVELOPE
            ? "write the ORCPT value in ASCII, or take it off"
            : "write the field in ASCII, or take it off if it may go";
    default:
        return NULL;
    }
}

/* Tells a refusal about a line: the file's line and the byte's columns from 1,
 * as editors count; then place and offset from 0, as the library counts. The
 * byte of a held field may stand in a later line than its place. */
static void tell_line(const message *m, hennelaku_answer answer)
{
    int in_envelope = answer.input == HENNELAKU_ENVELOPE;
    const char *name = in_envelope ? "envelope" : "header";
    size_t before = in_envelope ? 0 : count_lines(m->envelope) + 1;
    part_line l;
    int there = find_line(in_envelope ? m->envelope : m->header,
                          answer.offset, &l);
    size_t at = there ? answer.offset - l.start : 0;

    fprintf(stderr, "%s:%zu:%zu: character %zu: refused by %u: %s; "
            "%s %zu and byte %zu of the %s, from 0\n",
            m->file, before + l.number + 1, at + 1,
            there ? character_column(l.text, at) : 1,
            (unsigned)answer.number, meaning(answer),
            l.number == answer.place ? "line" : "field at line",
            answer.place, answer.offset, name);
    if (there) {
        print_marked(stderr, &l, at);
    } else {
        fprintf(stderr, "there is no such line: the %s ends before it\n",
                name);
    }
}

/* Tells a refusal in words and returns the exit status for it. */
static int tell_refusal(const message *m, hennelaku_answer answer)
{
    int in_envelope = answer.input == HENNELAKU_ENVELOPE;

    switch (answer.number) {
    case HENNELAKU_TOO_LONG:
        fprintf(stderr, "%s: refused by 1: the %s has %zu bytes; at most %d "
                "are taken\n", m->file,
                in_envelope ? "envelope" : "header",
                in_envelope ? m->envelope.len : m->header.len,
                in_envelope ? HENNELAKU_MAX_ENVELOPE : HENNELAKU_MAX_HEADER);
        break;
    case HENNELAKU_ENVELOPE_LINE:
    case HENNELAKU_NO_ALT_ADDRESS:
    case HENNELAKU_BAD_ALT_ADDRESS:
    case HENNELAKU_ALT_ADDRESS_RETIRED:
    case HENNELAKU_HEADER_LINE:
    case HENNELAKU_HELD:
        tell_line(m, answer);
        break;
    default:
        fprintf(stderr, "%s: the library answered %u: %s\n", m->file,
                (unsigned)answer.number,
                hennelaku_number_text(answer.number));
        return STATUS_SOFTWARE;
    }
    fprintf(stderr, "what to do: %s\n", advice(m->setting, answer));
    return STATUS_REFUSED;
}

/* Takes a message file apart. */
static int take_apart(part all, message *m)
{
    part rest = all;

    if (!cut_at_empty_line(&rest, &m->envelope)) {
        fprintf(stderr, "%s: no empty line ends the envelope\n"
                "what to do: put an empty line between the envelope lines "
                "and the header\n", m->file);
        return 0;
    }
    m->has_body = cut_at_empty_line(&rest, &m->header);
    if (!m->has_body) {
        m->header = rest;
        rest.len = 0;
    }
    m->body = rest;
    return 1;
}

/* Notes what goes out though a recipient or a server had better not get it. */
static void note_outgoing(const message *m)
{
    part mail = part_between(m->envelope, 0, next_crlf(m->envelope, 0));
    buffer header = {NULL, 0, 0, 0};
    size_t end = mail.len;
    size_t start;

    if (add_without_bcc(&header, m->header) > 0) {
        fprintf(stderr, "%s: note: a Bcc field goes to every recipient; "
                "hennelaku-pipe takes it off\n", m->file);
    }
    buffer_clear(&header);
    while (end > 0) {
        for (start = end; start > 0 && mail.bytes[start - 1] != ' '; start--) {
        }
        if (part_equal_in_any_case(part_between(mail, start, end),
                                   part_of("SMTPUTF8"))) {
            fprintf(stderr, "%s:1: note: SMTPUTF8 goes out as it is, and "
                    "ASCII-only servers refuse it;\n"
                    "    hennelaku-pipe leaves it out\n", m->file);
        }
        end = start > 0 ? start - 1 : 0;
    }
}

static int write_message(const message *m, const downgraded *d)
{
    fwrite(d->envelope.bytes, 1, d->envelope.len, stdout);
    fputs("DATA\r\n", stdout);
    fwrite(d->header.bytes, 1, d->header.len, stdout);
    if (m->has_body) {
        fputs("\r\n", stdout);
        fwrite(m->body.bytes, 1, m->body.len, stdout);
    }
    if (fflush(stdout) != 0 || ferror(stdout)) {
        fprintf(stderr, "%s: standard output cannot be written: %s\n",
                m->file, strerror(errno));
        return STATUS_IO;
    }
    note_outgoing(m);
    return STATUS_WRITTEN;
}

/* Downgrades a message and writes it. */
static int show_message(uint64_t setting, const char *file, part all)
{
    downgraded d;
    message m;
    int status;

    memset(&d, 0, sizeof d);
    m.file = file;
    m.setting = setting;
    if (!take_apart(all, &m)) {
        return STATUS_REFUSED;
    }
    if (!downgrade(setting, m.envelope, m.header, &d)) {
        fprintf(stderr, "%s: no memory\n", file);
        status = STATUS_NO_MEMORY;
    } else if (d.answer.number != HENNELAKU_OK) {
        status = tell_refusal(&m, d.answer);
    } else {
        status = write_message(&m, &d);
    }
    downgraded_clear(&d);
    return status;
}

/* Reads an open file, with each LF alone made CRLF, and shows it. */
static int show_file(uint64_t setting, FILE *in, const char *file)
{
    buffer as_it_came = {NULL, 0, 0, 0};
    buffer all = {NULL, 0, 0, 0};
    enum read_result r = read_all(in, MAX_MESSAGE, &as_it_came);
    size_t lone = r == READ_DONE
                ? add_with_crlf(&all, buffer_part(&as_it_came)) : 0;
    int status;

    buffer_clear(&as_it_came);
    if (r == READ_TOO_LONG) {
        fprintf(stderr, "%s: too large: messages have at most %zu bytes\n",
                file, MAX_MESSAGE);
        status = STATUS_REFUSED;
    } else if (r == READ_FAILED) {
        fprintf(stderr, "%s: cannot be read: %s\n", file, strerror(errno));
        status = STATUS_IO;
    } else if (r == READ_NO_MEMORY || all.failed) {
        fprintf(stderr, "%s: no memory\n", file);
        status = STATUS_NO_MEMORY;
    } else {
        if (lone > 0) {
            fprintf(stderr, "%s: note: lines that end in LF alone are taken "
                    "to end in CRLF: %zu\n", file, lone);
        }
        status = show_message(setting, file, buffer_part(&all));
    }
    buffer_clear(&all);
    return status;
}

int main(int argc, char **argv)
{
    uint64_t setting = HENNELAKU_SPOOL;
    const char *file;
    FILE *in = stdin;
    int status;

    if (argc == 2 && strcmp(argv[1], "--help") == 0) {
        return print_help();
    }
    if (argc == 2 && strcmp(argv[1], "--version") == 0) {
        puts("hennelaku " HENNELAKU_VERSION_TEXT);
        return STATUS_WRITTEN;
    }
    if (is_queued(argc, argv)) {
        return show_queued(argc, argv);
    }
    if (argc > 1 && strcmp(argv[1], "--current") == 0) {
        setting = HENNELAKU_CURRENT;
        argc--;
        argv++;
    }
    file = argc < 2 ? "-" : argv[1];
    if (argc > 2 || (file[0] == '-' && file[1] != '\0')) {
        return print_usage(stderr);
    }
    if (!library_fits()) {
        fputs("hennelaku: the library is of another version\n", stderr);
        return STATUS_SOFTWARE;
    }
    if (strcmp(file, "-") == 0) {
        return show_file(setting, stdin, "standard input");
    }
    in = fopen(file, "rb");
    if (in == NULL) {
        fprintf(stderr, "%s: cannot be opened: %s\n", file, strerror(errno));
        return STATUS_NO_INPUT;
    }
    status = show_file(setting, in, file);
    fclose(in);
    return status;
}
