#define _XOPEN_SOURCE 700

#include "settings.h"

#include <string.h>
#include <unistd.h>

#include "lines.h"

/* So many columns of a value are told. */
#define MAX_TOLD 200

/* A number from 1 to 86400. */
static int read_seconds(const char *text, int *seconds)
{
    int value = 0;

    for (; *text >= '0' && *text <= '9' && value <= 86400; text++) {
        value = value * 10 + (*text - '0');
    }
    *seconds = value;
    return *text == '\0' && value >= 1 && value <= 86400;
}

/* A name or an address in brackets, as EHLO takes it. */
static int read_own_name(const char *text, char name[256])
{
    size_t len = strlen(text);

    snprintf(name, 256, "%s", text);
    return len > 0 && len < 256
        && strspn(text, "abcdefghijklmnopqrstuvwxyz0123456789-.:[]"
                        "ABCDEFGHIJKLMNOPQRSTUVWXYZ") == len;
}

/* pipe(8) puts MAILER-DAEMON for the null sender unless it is told not to; no
 * other sender has no domain. */
static part read_sender(const char *text)
{
    return part_of(strcmp(text, "<>") == 0
                   || strcmp(text, "MAILER-DAEMON") == 0 ? "" : text);
}

static int read_setting(const char *text, uint64_t *setting)
{
    *setting = strcmp(text, "spool") == 0 ? HENNELAKU_SPOOL
                                          : HENNELAKU_CURRENT;
    return *setting == HENNELAKU_SPOOL || strcmp(text, "current") == 0;
}

/* Takes an option's value. Returns null, or what it has to be. */
static const char *read_option(settings *s, char letter, const char *value)
{
    switch (letter) {
    case 'n':
        return read_hop(value, &s->hop) ? NULL
            : "not a next hop: HOST:PORT or [HOST]:PORT";
    case 'a':
        s->delivery.alternatives = value;
        return NULL;
    case 's':
        return read_setting(value, &s->delivery.setting) ? NULL
            : "not a setting: spool or current";
    case 'q':
        s->delivery.queue_id = value;
        return NULL;
    case 't':
        return read_seconds(value, &s->delivery.smtp.max_seconds) ? NULL
            : "not a number of seconds from 1 to 86400";
    case 'e':
        return read_own_name(value, s->own_name) ? NULL
            : "not a name for EHLO: letters, digits and -.:[] up to 255";
    case 'l':
        s->log = value;
        return NULL;
    case 'f':
        s->delivery.addresses.sender = read_sender(value);
        s->has_sender = 1;
        return NULL;
    default:
        return "no such option";
    }
}

static int is_option(const char *text)
{
    return text[0] == '-' && strlen(text) == 2
        && strchr("nasqtelf", text[1]) != NULL;
}

/* Tells the fault of an option, and of its value if it is not null. */
static int option_fault(settings *s, const char *option, const char *value,
                        const char *reason)
{
    if (s->fault.len > 0) {
        return 0;
    }
    buffer_add_text(&s->fault, "option ");
    add_readable(&s->fault, part_of(option), MAX_TOLD);
    if (value != NULL) {
        buffer_add_text(&s->fault, " \"");
        add_readable(&s->fault, part_of(value), MAX_TOLD);
        buffer_add_text(&s->fault, "\"");
    }
    buffer_add_text(&s->fault, ": ");
    buffer_add_text(&s->fault, reason);
    return 0;
}

static int has_no_fault(settings *s)
{
    if (s->delivery.smtp.hop == NULL) {
        return option_fault(s, "-n", NULL, "missing: the next hop");
    }
    if (!s->has_sender) {
        return option_fault(s, "-f", NULL, "missing: the sender");
    }
    if (s->delivery.addresses.recipient_count == 0) {
        return option_fault(s, "--", NULL, "no recipient follows");
    }
    if (s->delivery.setting != HENNELAKU_SPOOL
        && s->delivery.alternatives != NULL) {
        return option_fault(s, "-a", s->delivery.alternatives,
                            "not with -s current, which takes no "
                            "alternatives");
    }
    return s->fault.len == 0 && !s->fault.failed;
}

/* Reads options up to the recipients, past one that is wrong: -q and -l may
 * follow it. Returns the place of the first recipient. */
static int read_options(settings *s, int argc, char **argv)
{
    int i = 1;

    while (i < argc && argv[i][0] == '-' && strcmp(argv[i], "--") != 0) {
        const char *option = argv[i];
        const char *value = i + 1 < argc ? argv[i + 1] : NULL;
        const char *reason = !is_option(option) ? "no such option"
                           : value == NULL ? "its value is missing"
                           : read_option(s, option[1], value);

        if (reason != NULL) {
            option_fault(s, option, is_option(option) ? value : NULL, reason);
        } else if (option[1] == 'n') {
            s->delivery.smtp.hop = &s->hop;
        }
        i += is_option(option) && value != NULL ? 2 : 1;
    }
    return i < argc && strcmp(argv[i], "--") == 0 ? i + 1 : i;
}

int read_settings(settings *s, int argc, char **argv)
{
    char machine[256] = "";
    int i;

    memset(s, 0, sizeof *s);
    s->delivery.smtp.max_seconds = 86400;
    if (gethostname(machine, sizeof machine - 1) != 0
        || !read_own_name(machine, s->own_name)) {
        read_own_name("localhost", s->own_name);
    }
    s->delivery.smtp.own_name = s->own_name;
    i = read_options(s, argc, argv);
    s->delivery.addresses.recipients = (const char *const *)(argv + i);
    s->delivery.addresses.recipient_count = (size_t)(argc - i);
    return has_no_fault(s);
}
