/*
 * hennelaku-read - show what a mail had before it was downgraded
 *
 * Reads messages, mboxes and folders, and prints the Downgraded- fields of
 * their headers with their encoded words read by libhennelaku. Its manual page
 * is hennelaku-read(1).
 */
#define _XOPEN_SOURCE 700
#define _DEFAULT_SOURCE

#include <dirent.h>
#include <errno.h>
#include <fcntl.h>
#include <stdio.h>
#include <stdlib.h>
#include <string.h>
#include <sys/ioctl.h>
#include <sys/stat.h>
#include <time.h>
#include <unistd.h>

#include "listing.h"
#include "mail_file.h"
#include "names.h"
#include "show.h"

#include "hennelaku.h"

/* Exit statuses of sysexits.h. */
enum {
    STATUS_READ = 0,
    STATUS_USAGE = 64,
    STATUS_REFUSED = 65,
    STATUS_NO_INPUT = 66,
    STATUS_SOFTWARE = 70,
    STATUS_NO_MEMORY = 71,
    STATUS_IO = 74
};

/* Progress is shown for so many files or more, so many times a second. */
#define MANY_FILES 200
#define PROGRESS_RATE 5

typedef struct reading {
    listing listing;
    mail_file file;
    buffer header;
    int status;
    int shows_progress;  /* standard error is a terminal */
    int clears_output;   /* so is standard output: the line is in its way */
    int has_progress;    /* a line of progress stands there */
    long last_progress;  /* when, in parts of a second */
} reading;

static int print_usage(FILE *out)
{
    fputs("usage: hennelaku-read [-t | --json] [FILE | FOLDER | -]...\n", out);
    return STATUS_USAGE;
}

static int print_help(void)
{
    print_usage(stdout);
    fputs("Prints the Downgraded- fields of messages: what they had before "
          "they were downgraded.\n"
          "A FILE is a message or an mbox, a FOLDER a Maildir or one with "
          "messages in it. Without\n"
          "any, or for -, standard input is read.\n"
          "  -t         a table: date, first sender, whom it was first meant "
          "for, subject, file\n"
          "  --json     a line with an object of JSON for each message\n"
          "  --help     this text\n"
          "  --version  the version\n"
          "Exit status: 0 all read, 64 wrong usage, 65 some field could not "
          "be read, 66 some file\n"
          "could not be read, 70 a fault of the library, 71 no memory, 74 "
          "not written to the end.\n",
          stdout);
    return STATUS_READ;
}

/* A worse status takes the place of a better one. */
static void note_status(reading *r, int status)
{
    if (status > r->status) {
        r->status = status;
    }
}

static void clear_progress(reading *r)
{
    if (r->has_progress) {
        fputs("\r\033[K", stderr);
        r->has_progress = 0;
    }
}

static void show_progress(reading *r, size_t done, size_t of)
{
    struct timespec now;
    long time;

    if (!r->shows_progress || of < MANY_FILES) {
        return;
    }
    clock_gettime(CLOCK_MONOTONIC, &now);
    time = (long)now.tv_sec * PROGRESS_RATE
         + now.tv_nsec / (1000000000L / PROGRESS_RATE);
    if (time != r->last_progress) {
        r->last_progress = time;
        fprintf(stderr, "\r%zu of %zu messages\033[K", done, of);
        fflush(stderr);
        r->has_progress = 1;
    }
}

/* Prints what the listing has. Returns 0 where that fails. */
static int print_listing(reading *r)
{
    listing *l = &r->listing;

    if (l->told.len > 0 || (l->out.len > 0 && r->clears_output)) {
        clear_progress(r);
    }
    if (l->out.len > 0) {
        fwrite(l->out.bytes, 1, l->out.len, stdout);
        l->out.len = 0;
    }
    if (l->told.len > 0) {
        fflush(stdout);
        fwrite(l->told.bytes, 1, l->told.len, stderr);
        l->told.len = 0;
    }
    if (ferror(stdout)) {
        note_status(r, STATUS_IO);
        return 0;
    }
    return 1;
}

/* Tells that a file is not read, by its name as it is shown. */
static void tell_file(reading *r, part name, const char *reason)
{
    buffer *to = &r->listing.told;

    add_shown(to, name);
    buffer_add_text(to, ": ");
    buffer_add_text(to, reason);
    buffer_add_text(to, "\n");
    note_status(r, STATUS_NO_INPUT);
    print_listing(r);
}

static void tell_end(reading *r, part name, enum mail_result end)
{
    switch (end) {
    case MAIL_FAILED:
        tell_file(r, name, strerror(r->file.error));
        break;
    case MAIL_TOO_LONG:
        tell_file(r, name, "a header is too long");
        break;
    case MAIL_NO_MEMORY:
        tell_file(r, name, "no memory");
        note_status(r, STATUS_NO_MEMORY);
        break;
    case MAIL_HEADER:
    case MAIL_END:
        break;
    }
}

/* Prints the messages of an open file. Returns 0 where nothing more can be
 * printed. */
static int print_file(reading *r, int fd, part name)
{
    enum mail_result result;
    listed m = {name, 0, {NULL, 0}};
    int goes_on = 1;

    mail_file_begin(&r->file, fd);
    result = next_header(&r->file, &r->header);
    while (result == MAIL_HEADER && goes_on) {
        m.number = r->file.is_mbox ? r->file.count : 0;
        m.header = buffer_part(&r->header);
        if (!add_message(&r->listing, &m)) {
            result = MAIL_NO_MEMORY;
            goes_on = 0;
        } else {
            goes_on = print_listing(r);
            result = next_header(&r->file, &r->header);
        }
    }
    tell_end(r, name, result);
    return goes_on && result != MAIL_NO_MEMORY;
}

/* Opens a file by its name and prints it, where it is a regular one; other
 * files of a folder are passed over. */
static int print_named(reading *r, const char *name, int in_folder)
{
    int fd = open(name, O_RDONLY | O_CLOEXEC | (in_folder ? O_NONBLOCK : 0));
    struct stat status;
    int goes_on = 1;

    if (fd < 0) {
        tell_file(r, part_of(name), strerror(errno));
    } else if (!in_folder || (fstat(fd, &status) == 0
                              && S_ISREG(status.st_mode))) {
        goes_on = print_file(r, fd, part_of(name));
    }
    if (fd >= 0) {
        close(fd);
    }
    return goes_on;
}

/* Adds the files of a folder, whose name comes first, and an optional folder
 * below it. Returns 0 where it cannot be read. */
static int add_names(names *to, const char *folder, const char *below)
{
    char path[PATH_ROOM];
    struct dirent *entry;
    DIR *dir;

    if (snprintf(path, sizeof path, "%s%s%s", folder,
                 below[0] == '\0' ? "" : "/", below) >= (int)sizeof path) {
        errno = ENAMETOOLONG;
        return 0;
    }
    dir = opendir(path);
    if (dir == NULL) {
        return 0;
    }
    for (entry = readdir(dir); entry != NULL; entry = readdir(dir)) {
        if (entry->d_name[0] != '.' && entry->d_type != DT_DIR) {
            names_add(to, path, entry->d_name);
        }
    }
    closedir(dir);
    return 1;
}

/* Prints the files of a folder by their names: of a Maildir those in new and
 * cur. */
static int print_folder(reading *r, const char *folder)
{
    names files = {{NULL, 0, 0, 0}, {NULL, 0, 0, 0}, 0};
    int is_maildir = add_names(&files, folder, "cur");
    int is_read = is_maildir
                ? add_names(&files, folder, "new") || errno == ENOENT
                : add_names(&files, folder, "");
    int goes_on = 1;
    size_t i;

    if (!is_read) {
        tell_file(r, part_of(folder), strerror(errno));
    }
    if (!names_sort(&files)) {
        tell_end(r, part_of(folder), MAIL_NO_MEMORY);
        goes_on = 0;
    }
    for (i = 0; goes_on && i < files.count; i++) {
        show_progress(r, i, files.count);
        goes_on = print_named(r, names_at(&files, i), 1);
    }
    clear_progress(r);
    names_clear(&files);
    return goes_on;
}

static int print_argument(reading *r, const char *name)
{
    struct stat status;

    if (strcmp(name, "-") == 0) {
        return print_file(r, STDIN_FILENO, part_of("standard input"));
    }
    if (stat(name, &status) == 0 && S_ISDIR(status.st_mode)) {
        return print_folder(r, name);
    }
    return print_named(r, name, 0);
}

static size_t terminal_columns(void)
{
    struct winsize size;

    return ioctl(STDOUT_FILENO, TIOCGWINSZ, &size) == 0 && size.ws_col > 0
         ? size.ws_col : 80;
}

/* Whether a file has more than one message: a folder, or an mbox whose second
 * message is found. Standard input is not looked at twice. */
static int has_several(reading *r, const char *name)
{
    struct stat status;
    int fd;
    int several;

    if (strcmp(name, "-") == 0 || stat(name, &status) != 0) {
        return 0;
    }
    if (!S_ISREG(status.st_mode)) {
        return S_ISDIR(status.st_mode);
    }
    fd = open(name, O_RDONLY | O_CLOEXEC);
    if (fd < 0) {
        return 0;
    }
    mail_file_begin(&r->file, fd);
    several = next_header(&r->file, &r->header) == MAIL_HEADER
           && r->file.is_mbox
           && next_header(&r->file, &r->header) == MAIL_HEADER;
    close(fd);
    return several;
}

/* Prints all that is named, and returns the exit status. */
static int print_all(reading *r, int count, const char *const *named)
{
    int goes_on = 1;
    int i;

    r->listing.names_files = count > 1 || has_several(r, named[0]);
    if (r->listing.form == LISTING_TABLE) {
        add_heading(&r->listing);
    }
    for (i = 0; goes_on && i < count; i++) {
        goes_on = print_argument(r, named[i]);
    }
    if (print_listing(r) && fflush(stdout) != 0) {
        note_status(r, STATUS_IO);
    }
    if (r->status == STATUS_IO) {
        fprintf(stderr, "hennelaku-read: standard output cannot be written: "
                "%s\n", strerror(errno));
    }
    if (r->listing.refused > 0) {
        note_status(r, STATUS_REFUSED);
    }
    return r->status;
}

/* Reads the options in front. Returns how many there are, or -1. */
static int read_options(listing *l, int argc, char **argv)
{
    int at = 1;

    for (; at < argc && argv[at][0] == '-' && argv[at][1] != '\0'; at++) {
        if (strcmp(argv[at], "--") == 0) {
            return at + 1;
        }
        if (l->form != LISTING_FIELDS) {
            return -1;
        }
        if (strcmp(argv[at], "-t") == 0) {
            l->form = isatty(STDOUT_FILENO) ? LISTING_TABLE : LISTING_TABS;
            l->columns = terminal_columns();
        } else if (strcmp(argv[at], "--json") == 0) {
            l->form = LISTING_JSON;
        } else {
            return -1;
        }
    }
    return at;
}

int main(int argc, char **argv)
{
    static const char *const standard_input[] = {"-"};
    static reading r;
    int at;

    if (argc == 2 && strcmp(argv[1], "--help") == 0) {
        return print_help();
    }
    if (argc == 2 && strcmp(argv[1], "--version") == 0) {
        puts("hennelaku-read " HENNELAKU_VERSION_TEXT);
        return STATUS_READ;
    }
    at = read_options(&r.listing, argc, argv);
    if (at < 0) {
        return print_usage(stderr);
    }
    if (hennelaku_version() != HENNELAKU_VERSION) {
        fputs("hennelaku-read: the library is of another version\n", stderr);
        return STATUS_SOFTWARE;
    }
    r.shows_progress = isatty(STDERR_FILENO);
    r.clears_output = isatty(STDOUT_FILENO);
    at = at < argc
       ? print_all(&r, argc - at, (const char *const *)&argv[at])
       : print_all(&r, 1, standard_input);
    listing_clear(&r.listing);
    buffer_clear(&r.header);
    buffer_clear(&r.file.line);
    return at;
}
