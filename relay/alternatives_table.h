/* A table of alternatives, as postmap(1) makes it. */
#ifndef ALTERNATIVES_TABLE_H
#define ALTERNATIVES_TABLE_H

#include "alternatives.h"

/* Opens the table `name`.cdb. */
void open_table(cdb *c, const char *name, file_fault *fault);

/* As find_alternative, by lookups of the spellings that an address may have as a
 * key: its local part as it came and in NFC, its domain as it came, in U-labels
 * and in A-labels. An address that is there only with its letter case folded is
 * a fault, since two addresses may have become one key. */
int find_in_table(const cdb *c, part address, buffer *alternative,
                  file_fault *fault);

/* Looks at every key and value. Returns how many there are. */
size_t check_table(const cdb *c, file_fault *fault);

#endif
