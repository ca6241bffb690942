/*
 * hennelaku-pipe - Postfix pipe(8) transport to a server that takes ASCII alone
 *
 * Reads a message from standard input, downgrades its envelope and header by
 * libhennelaku, and delivers it to the next hop by SMTP. One process delivers
 * one message. Its manual page is hennelaku-pipe(8).
 *
 * Exit status: 0 the next hop has taken the message, by its reply after the
 * data; 65 the message cannot be downgraded, or cannot be sent as it is; 69 the
 * next hop refuses it for good; 75 anything else, wrong options among it, so
 * that the queue keeps the message. Standard output gets one line, which
 * pipe(8) takes over: an enhanced status code, and why.
 */
#define _XOPEN_SOURCE 700

#include <signal.h>
#include <stdio.h>
#include <string.h>
#include <sys/stat.h>

#include "delivery.h"
#include "lines.h"
#include "log.h"
#include "settings.h"
#include "whole_file.h"

#define USAGE \
    "usage: hennelaku-pipe -n HOST:PORT [-a FILE | -s current] [-q ID] " \
    "[-t SECONDS] [-e NAME] [-l FILE] -f SENDER -- RECIPIENT.."

/* Where --install puts a file that is given no other place. */
#define INSTALLED "/etc/postfix/alternatives"

/* Statuses of --check and --install, which Postfix never sees. */
enum {
    STATUS_GOOD_FILE = 0,
    STATUS_BAD_FILE = 65,
    STATUS_NO_FILE = 66,
    STATUS_NOT_WRITTEN = 73
};

static void print_help(void)
{
    puts(USAGE "\n"
         "       hennelaku-pipe --check FILE\n"
         "       hennelaku-pipe --install FILE [TO]\n"
         "Downgrades a message from standard input to ASCII by RFC 5504 and "
         "delivers it by SMTP.\n"
         "  -n HOST:PORT  the next hop; also [HOST]:PORT\n"
         "  -a FILE       alternatives: an address and its ASCII address on "
         "each line, and a last\n"
         "                line '" CLOSING_LINE "'; or cdb:NAME, a table by "
         "postmap -f\n"
         "  -s SETTING    spool, as without this option, or current: no "
         "alternatives are taken,\n"
         "                and an address that is not ASCII is refused\n"
         "  -q ID         the queue's name of the message, for the log\n"
         "  -t SECONDS    wait for no answer longer than this\n"
         "  -e NAME       the name for EHLO, where not this machine's\n"
         "  -l FILE       log to this file, not to the mail log\n"
         "  --check FILE  look at a file or table of alternatives, and "
         "deliver nothing\n"
         "  --install FILE [TO]\n"
         "                check a file of alternatives, and put it in the "
         "place of TO by rename;\n"
         "                TO is " INSTALLED " where it is not given");
}

/* Tells what is wrong with a file. */
static int tell_fault(const char *name, file_fault fault)
{
    if (fault.line > 0) {
        fprintf(stderr, "%s:%zu: %s\n", name, fault.line, fault.reason);
        return STATUS_BAD_FILE;
    }
    fprintf(stderr, "%s: %s\n", name, fault.reason);
    return STATUS_NO_FILE;
}

/* Opens alternatives and looks at all of them. Returns their number, or tells
 * what is wrong and sets a status that is not 0. */
static size_t check_all(alternatives *a, const char *name, int *status)
{
    file_fault fault;
    size_t count = 0;

    *status = STATUS_GOOD_FILE;
    if (alternatives_open(a, name, &fault)) {
        count = check_alternatives(a, &fault);
    }
    if (fault.reason != NULL) {
        *status = tell_fault(name, fault);
    }
    return count;
}

static int check_file(const char *name)
{
    alternatives a;
    int status;
    size_t count;

    memset(&a, 0, sizeof a);
    count = check_all(&a, name, &status);
    if (status == STATUS_GOOD_FILE) {
        printf("%s: %zu alternatives\n", name, count);
    }
    alternatives_clear(&a);
    return status;
}

/* Puts a file in place that was looked at: the bytes that are written are those
 * that were read. */
static int install_file(const char *name, const char *to)
{
    const char *reason;
    alternatives a;
    int status;
    size_t count;

    memset(&a, 0, sizeof a);
    count = check_all(&a, name, &status);
    if (status == STATUS_GOOD_FILE && a.is_table) {
        fprintf(stderr, "%s: a table is put in place by postmap -f\n", name);
        status = STATUS_BAD_FILE;
    } else if (status == STATUS_GOOD_FILE) {
        reason = replace_file(to, buffer_part(&a.text));
        if (reason != NULL) {
            fprintf(stderr, "%s: %s\n", to, reason);
            status = STATUS_NOT_WRITTEN;
        } else {
            printf("%s: %zu alternatives\n", to, count);
        }
    }
    alternatives_clear(&a);
    return status;
}

/* The next hop's answer stands, also where standard output is closed or full,
 * or the log cannot be written. */
static int deliver_message(const settings *s)
{
    buffer line = {NULL, 0, 0, 0};
    delivery d;
    int status;

    memset(&d, 0, sizeof d);
    deliver(&d, &s->delivery, stdin);
    add_log_line(&line, &d);
    write_log(s->log, &line);
    printf("%s %.*s\n", d.enhanced, (int)d.text.len,
           d.text.len == 0 ? "" : (const char *)d.text.bytes);
    fflush(stdout);
    status = d.status;
    buffer_clear(&line);
    delivery_clear(&d);
    return status;
}

/* Whether standard error goes elsewhere than standard output: pipe(8) has one
 * file for both. */
static int has_own_errors(void)
{
    struct stat out;
    struct stat errors;

    return fstat(2, &errors) == 0
        && (fstat(1, &out) != 0 || out.st_dev != errors.st_dev
            || out.st_ino != errors.st_ino);
}

/* Names a wrong option, where it can be seen. */
static int tell_usage(settings *s)
{
    const char *id = s->delivery.queue_id;
    buffer line = {NULL, 0, 0, 0};

    buffer_add_byte(&s->fault, 0);
    if (s->fault.failed) {
        puts("4.3.0 no memory");
        return STATUS_LATER;
    }
    printf("4.3.5 %s; see hennelaku-pipe --help\n",
           (const char *)s->fault.bytes);
    if (has_own_errors()) {
        fprintf(stderr, "hennelaku-pipe: %s\n" USAGE "\n",
                (const char *)s->fault.bytes);
    }
    add_quoted(&line, part_of(id == NULL ? "NOQUEUE" : id), 200);
    buffer_add_text(&line, ": status=deferred (4.3.5 ");
    buffer_add_text(&line, (const char *)s->fault.bytes);
    buffer_add_text(&line, ")");
    write_log(s->log, &line);
    buffer_clear(&line);
    buffer_clear(&s->fault);
    return STATUS_LATER;
}

int main(int argc, char **argv)
{
    settings s;

    signal(SIGPIPE, SIG_IGN);
    if (argc == 2 && strcmp(argv[1], "--help") == 0) {
        print_help();
        return 0;
    }
    if (argc == 2 && strcmp(argv[1], "--version") == 0) {
        puts("hennelaku-pipe " HENNELAKU_VERSION_TEXT);
        return 0;
    }
    if (argc == 3 && strcmp(argv[1], "--check") == 0) {
        return check_file(argv[2]);
    }
    if ((argc == 3 || argc == 4) && strcmp(argv[1], "--install") == 0) {
        return install_file(argv[2], argc == 4 ? argv[3] : INSTALLED);
    }
    return read_settings(&s, argc, argv) ? deliver_message(&s)
                                         : tell_usage(&s);
}
