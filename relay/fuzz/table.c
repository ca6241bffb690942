/* Fuzzes tables of type cdb: whatever their bytes are, what is found is an ASCII
 * address. */
#define _GNU_SOURCE

#include <stdio.h>
#include <string.h>
#include <sys/mman.h>
#include <unistd.h>

#include "address.h"
#include "alternatives_table.h"
#include "must.h"

static void look_up(const cdb *c, const char *address)
{
    buffer found = {NULL, 0, 0, 0};
    file_fault fault = {0, NULL};

    if (find_in_table(c, part_of(address), &found, &fault)) {
        must(fault.reason == NULL && is_ascii_address(buffer_part(&found)));
    } else {
        must(found.len == 0);
    }
    buffer_clear(&found);
}

int LLVMFuzzerTestOneInput(const uint8_t *data, size_t size)
{
    int file = memfd_create("table", MFD_CLOEXEC);
    file_fault fault = {0, NULL};
    const char *reason;
    char name[64];
    cdb c;

    must(file >= 0 && write(file, data, size) == (ssize_t)size);
    snprintf(name, sizeof name, "/proc/self/fd/%d", file);
    if (cdb_open(&c, name, &reason) == CDB_FOUND) {
        look_up(&c, "\xC3\xA9@x");
        look_up(&c, "\xC3\x89@\xC3\xA9.example");
        check_table(&c, &fault);
    } else {
        must(reason != NULL);
    }
    cdb_close(&c);
    close(file);
    return 0;
}
