#define _DEFAULT_SOURCE
#include "area.h"

#include <stdio.h>
#include <stdlib.h>
#include <string.h>
#include <sys/mman.h>

#define GUARD 64
#define PAGE ((size_t)4096)

static void *must(void *p)
{
    if (p == NULL || p == MAP_FAILED) {
        fputs("no memory for a test\n", stderr);
        exit(2);
    }
    return p;
}

/* Pages that may be used, with one on each side that may not. */
static void new_pages(area *a, size_t used)
{
    a->base_len = used + 2 * PAGE;
    a->base = must(mmap(NULL, a->base_len, PROT_NONE,
                        MAP_PRIVATE | MAP_ANONYMOUS, -1, 0));
    if (mprotect(a->base + PAGE, used, PROT_READ | PROT_WRITE) != 0) {
        must(NULL);
    }
    memset(a->base + PAGE, AREA_FILL, used);
}

area area_new(area_kind kind, size_t len)
{
    area a = {kind, NULL, len, NULL, 0};
    size_t used = (len / PAGE + 1) * PAGE;

    switch (kind) {
    case AREA_BEFORE_PAGE:
        new_pages(&a, used);
        a.at = a.base + PAGE + used - len;
        break;
    case AREA_AFTER_PAGE:
        new_pages(&a, used);
        a.at = a.base + PAGE;
        break;
    case AREA_EXACT:
        a.base_len = len;
        a.base = must(malloc(len > 0 ? len : 1));
        a.at = a.base;
        memset(a.base, AREA_FILL, len);
        break;
    case AREA_GUARDED:
    case AREA_KINDS:
        a.base_len = len + 2 * GUARD;
        a.base = must(malloc(a.base_len));
        a.at = a.base + GUARD;
        memset(a.base, AREA_FILL, a.base_len);
        break;
    }
    return a;
}

area area_of(area_kind kind, const uint8_t *bytes, size_t len)
{
    area a = area_new(kind, len);

    if (len > 0) {
        memcpy(a.at, bytes, len);
    }
    return a;
}

static int filled(const uint8_t *from, const uint8_t *to)
{
    for (; from < to; from++) {
        if (*from != AREA_FILL) {
            return 0;
        }
    }
    return 1;
}

int area_untouched(const area *a, size_t from)
{
    const uint8_t *start = a->base;
    const uint8_t *end = a->base + a->base_len;

    if (a->kind == AREA_BEFORE_PAGE || a->kind == AREA_AFTER_PAGE) {
        start += PAGE;
        end -= PAGE;
    }
    return filled(start, a->at) && filled(a->at + from, end);
}

void area_free(area *a)
{
    if (a->kind == AREA_BEFORE_PAGE || a->kind == AREA_AFTER_PAGE) {
        munmap(a->base, a->base_len);
    } else {
        free(a->base);
    }
    a->base = NULL;
    a->at = NULL;
}
