/* Fuzzes the file of alternatives: a good one has no front part that is good, and
 * gives ASCII addresses that stand in it. */
#include <string.h>

#include "address.h"
#include "alternatives.h"
#include "must.h"

/* Whether a text stands in another. */
static int stands_in(part text, part all)
{
    size_t i;

    for (i = 0; i + text.len <= all.len; i++) {
        if (memcmp(all.bytes + i, text.bytes, text.len) == 0) {
            return 1;
        }
    }
    return 0;
}

static void look_up(const alternatives *a, const char *address)
{
    buffer found = {NULL, 0, 0, 0};
    file_fault fault;

    if (find_alternative(a, part_of(address), &found, &fault)) {
        must(fault.reason == NULL);
        must(is_ascii_address(buffer_part(&found)));
        must(stands_in(buffer_part(&found), buffer_part(&a->text)));
    } else {
        must(found.len == 0);
    }
    buffer_clear(&found);
}

static void check_fronts(part text)
{
    size_t step = text.len / 16 + 1;
    size_t len;
    file_fault fault;

    for (len = text.len - 1; len > 0; len -= len > step ? step : len) {
        check_text(part_between(text, 0, len), &fault);
        must(fault.reason != NULL);
    }
}

int LLVMFuzzerTestOneInput(const uint8_t *data, size_t size)
{
    part text = {NULL, 0};
    alternatives a;
    file_fault fault;

    memset(&a, 0, sizeof a);
    text.bytes = data;
    text.len = size;
    a.name = "fuzz";
    buffer_add(&a.text, text);
    check_text(text, &fault);
    if (fault.reason == NULL) {
        must(size >= 6 && data[size - 1] == '\n');
        check_fronts(text);
        look_up(&a, "\xC3\xA9@x.example");
        look_up(&a, "\xC3\xA9@\xC3\xA9.example");
        look_up(&a, "\"\xC3\xA9 \"@x.example");
        check_alternatives(&a, &fault);
    }
    alternatives_clear(&a);
    return 0;
}
