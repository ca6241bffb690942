/* Memory to lend to a call, so that a byte touched outside is noticed. */
#ifndef AREA_H
#define AREA_H

#include <stddef.h>
#include <stdint.h>

typedef enum area_kind {
    AREA_GUARDED,     /* 64 bytes of a known value on each side */
    AREA_EXACT,       /* a block of the heap of just this size, for valgrind */
    AREA_BEFORE_PAGE, /* ends where a page begins that may not be touched */
    AREA_AFTER_PAGE,  /* begins where such a page ends */
    AREA_KINDS
} area_kind;

typedef struct area {
    area_kind kind;
    uint8_t *at;      /* the bytes to lend; never null */
    size_t len;
    uint8_t *base;
    size_t base_len;
} area;

/* Every byte of a new area has this value. */
#define AREA_FILL 0xA5

/* An area of len bytes. Ends the program where there is no memory. */
area area_new(area_kind kind, size_t len);

/* An area that holds a copy of some bytes. */
area area_of(area_kind kind, const uint8_t *bytes, size_t len);

/* Whether the bytes around the area, and those in it from `from` on, still
 * have the value AREA_FILL. */
int area_untouched(const area *a, size_t from);

void area_free(area *a);

#endif
