/* Constant databases: the tables that postmap(1) makes of type cdb. */
#ifndef CDB_H
#define CDB_H

#include "bytes.h"

/* An open table. Its bytes are read when they are asked for, so that a lookup
 * takes the same time whatever the table's size. */
typedef struct cdb {
    int fd;
    uint32_t size;  /* of the file */
    uint32_t end;   /* of the records */
    long long changed;  /* when the file was last written to, in ns */
} cdb;

enum cdb_result {
    CDB_FOUND,
    CDB_NONE,
    CDB_FAILED  /* the reason is told */
};

/* Opens a table and looks whether it is whole: its 256 hash tables follow one
 * another from the records' end to the file's. */
enum cdb_result cdb_open(cdb *c, const char *name, const char **reason);

/* The n-th value, from 0, of a key. */
enum cdb_result cdb_find(const cdb *c, part key, size_t n, buffer *value,
                         const char **reason);

/* The record at *at, which is set to the place of the next one; the first is at
 * CDB_FIRST. */
#define CDB_FIRST 2048
enum cdb_result cdb_next(const cdb *c, uint32_t *at, buffer *key,
                         buffer *value, const char **reason);

/* Whether the file is still as it was when it was opened: postmap replaces a
 * table by rename, and what writes into one makes what was read worth nothing. */
int cdb_is_unchanged(const cdb *c);

void cdb_close(cdb *c);

#endif
