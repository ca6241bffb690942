#include "names.h"

#include <stdlib.h>
#include <string.h>

void names_add(names *n, const char *folder, const char *file)
{
    part start = {(const uint8_t *)&n->text.len, sizeof n->text.len};

    buffer_add(&n->starts, start);
    buffer_add_text(&n->text, folder);
    buffer_add_byte(&n->text, '/');
    buffer_add_text(&n->text, file);
    buffer_add_byte(&n->text, '\0');
    n->count++;
}

/* Each start becomes the pointer to its name, so that they can be compared. */
union place {
    size_t start;
    const char *name;
};

static int compare(const void *a, const void *b)
{
    union place p;
    union place q;

    memcpy(&p, a, sizeof p);
    memcpy(&q, b, sizeof q);
    return strcmp(p.name, q.name);
}

int names_sort(names *n)
{
    size_t i;

    if (n->text.failed || n->starts.failed) {
        return 0;
    }
    for (i = 0; i < n->count; i++) {
        union place p;

        memcpy(&p, n->starts.bytes + i * sizeof p, sizeof p);
        p.name = (const char *)n->text.bytes + p.start;
        memcpy(n->starts.bytes + i * sizeof p, &p, sizeof p);
    }
    if (n->count > 0) {
        qsort(n->starts.bytes, n->count, sizeof(union place), compare);
    }
    return 1;
}

const char *names_at(const names *n, size_t at)
{
    union place p;

    memcpy(&p, n->starts.bytes + at * sizeof p, sizeof p);
    return p.name;
}

void names_clear(names *n)
{
    buffer_clear(&n->text);
    buffer_clear(&n->starts);
    n->count = 0;
}
