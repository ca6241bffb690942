/* The letters of which address.c says that NFC and IDNA leave them as they are:
 * asks for each, alone and beside each of some others. Prints the first that is
 * not so; ends with 0 where there is none. */
#include <stdio.h>

#include "../address.h"

static void add_letter(buffer *b, uint32_t c)
{
    if (c < 0x80) {
        buffer_add_byte(b, (uint8_t)c);
    } else if (c < 0x800) {
        buffer_add_byte(b, (uint8_t)(0xC0 | c >> 6));
        buffer_add_byte(b, (uint8_t)(0x80 | (c & 0x3F)));
    } else {
        buffer_add_byte(b, (uint8_t)(0xE0 | c >> 12));
        buffer_add_byte(b, (uint8_t)(0x80 | (c >> 6 & 0x3F)));
        buffer_add_byte(b, (uint8_t)(0x80 | (c & 0x3F)));
    }
}

/* Whether a text stays as it is in NFC and as a label of a domain. */
static int stays(part text)
{
    buffer normal = {NULL, 0, 0, 0};
    buffer label = {NULL, 0, 0, 0};
    int does;

    add_nfc(&normal, text);
    add_domain_unicode(&label, text);
    does = is_settled(text) && is_settled_domain(text)
        && part_equal(text, buffer_part(&normal))
        && part_equal(text, buffer_part(&label));
    buffer_clear(&normal);
    buffer_clear(&label);
    return does;
}

int main(void)
{
    static const uint32_t others[] = {'a', 0xE9, 0x3B1, 0x430, 0x5D0, 0x627,
                                      0x905, 0x304B, 0x30AB, 0x4E00, 0xAC00};
    size_t count = 0;
    uint32_t c;

    for (c = 0x80; c < 0x10000; c++) {
        buffer text = {NULL, 0, 0, 0};
        size_t i;

        if (!is_settled_letter(c)) {
            continue;
        }
        count++;
        add_letter(&text, c);
        for (i = 0; i < sizeof others / sizeof others[0]; i++) {
            if (!stays(buffer_part(&text))) {
                printf("U+%04X does not stay, with %zu others\n", (unsigned)c,
                       i);
                return 1;
            }
            buffer_clear(&text);
            add_letter(&text, others[i]);
            add_letter(&text, c);
            add_letter(&text, others[i]);
        }
        buffer_clear(&text);
    }
    printf("%zu letters\n", count);
    return count > 1000 ? 0 : 1;
}
