/* Names of files, in order. */
#ifndef NAMES_H
#define NAMES_H

#include "bytes.h"

/* Bytes of the longest path. */
#define PATH_ROOM 4096

typedef struct names {
    buffer text;    /* each with a NUL */
    buffer starts;  /* where each begins; once sorted, pointers to them */
    size_t count;
} names;

/* Adds a file of a folder. */
void names_add(names *n, const char *folder, const char *file);

/* Sorts the names byte by byte. Returns 0 where there was no memory. */
int names_sort(names *n);

/* The name at a place, which stays while none is added. */
const char *names_at(const names *n, size_t at);

void names_clear(names *n);

#endif
