/* Fuzzes hennelaku-read: a file of messages, in each form that is printed. */
#define _GNU_SOURCE

#include <string.h>
#include <sys/mman.h>
#include <unistd.h>

#include "characters.h"
#include "listing.h"
#include "mail_file.h"
#include "must.h"

/* Nothing steers a terminal but the ends of lines, and TABs in a table. */
static void must_be_shown(part p, int has_tabs)
{
    size_t at = 0;

    while (at < p.len) {
        uint32_t number = 0;
        size_t len = character_at(p, at, &number);

        must(len > 0);
        must(!is_steering(number) || number == '\n'
             || (number == '\t' && has_tabs));
        at += len;
    }
}

static void list_file(int fd, enum listing_form form)
{
    static mail_file file;
    listing l;
    listed m = {part_of("\x1b[2J\xff"), 0, {NULL, 0}};
    buffer header = {NULL, 0, 0, 0};

    memset(&l, 0, sizeof l);
    l.form = form;
    l.columns = 100;
    l.names_files = 1;
    mail_file_begin(&file, fd);
    while (next_header(&file, &header) == MAIL_HEADER) {
        m.number = file.is_mbox ? file.count : 0;
        m.header = buffer_part(&header);
        must(add_message(&l, &m));
    }
    must_be_shown(buffer_part(&l.out), form == LISTING_TABS);
    must_be_shown(buffer_part(&l.told), 0);
    listing_clear(&l);
    buffer_clear(&header);
    buffer_clear(&file.line);
}

int LLVMFuzzerTestOneInput(const uint8_t *data, size_t size)
{
    int fd = memfd_create("messages", 0);
    int form;

    must(fd >= 0 && write(fd, data, size) == (ssize_t)size);
    for (form = LISTING_FIELDS; form <= LISTING_JSON; form++) {
        must(lseek(fd, 0, SEEK_SET) == 0);
        list_file(fd, (enum listing_form)form);
    }
    close(fd);
    return 0;
}
