#include "address.h"

#include <idn2.h>
#include <stdlib.h>
#include <string.h>
#include <uninorm.h>

#include "downgrade.h"

static void add_xtext_byte(buffer *b, uint8_t c)
{
    static const char hex[] = "0123456789ABCDEF";

    if (c < 33 || c > 126 || c == '+' || c == '=') {
        buffer_add_byte(b, '+');
        buffer_add_byte(b, (uint8_t)hex[c >> 4]);
        buffer_add_byte(b, (uint8_t)hex[c & 15]);
    } else {
        buffer_add_byte(b, c);
    }
}

void add_xtext(buffer *b, part p)
{
    size_t i;

    for (i = 0; i < p.len; i++) {
        add_xtext_byte(b, p.bytes[i]);
    }
}

void add_letters_xtext(buffer *b, part p)
{
    size_t i;

    for (i = 0; i < p.len; i++) {
        add_xtext_byte(b, p.bytes[i] > 127 ? 'a' : p.bytes[i]);
    }
}

void start_question(buffer *envelope)
{
    envelope->len = 0;
    buffer_add_text(envelope, "MAIL FROM:<>\r\n");
}

/* Asks whether an address is one as a whole. The library reads an ALT-ADDRESS to
 * its end, so this is asked of an alternative. A letter may stand in an address
 * wherever a byte past ASCII may. */
static void ask_whole(buffer *envelope, part address)
{
    buffer_add_text(envelope, "RCPT TO:<\xC3\xA9@example.org> ALT-ADDRESS=");
    add_letters_xtext(envelope, address);
    buffer_add_text(envelope, "\r\n");
}

/* The library reads a path as far as a '>' that ends it: an address that has one
 * is asked for once more. */
void ask_recipient(buffer *envelope, part address, part alternative)
{
    buffer_add_text(envelope, "RCPT TO:<");
    buffer_add(envelope, address);
    buffer_add_text(envelope, "> ALT-ADDRESS=");
    add_xtext(envelope, alternative);
    buffer_add_text(envelope, "\r\n");
    if (address.len > 0 && memchr(address.bytes, '>', address.len) != NULL) {
        ask_whole(envelope, address);
    }
}

/* Asks, and clears the question. */
static int ask(buffer *envelope)
{
    int is = !envelope->failed && is_envelope(buffer_part(envelope));

    buffer_clear(envelope);
    return is;
}

int is_ascii_address(part p)
{
    buffer envelope = {NULL, 0, 0, 0};

    if (!part_is_ascii(p)) {
        return 0;
    }
    start_question(&envelope);
    ask_whole(&envelope, p);
    return ask(&envelope);
}

int is_address(part p)
{
    buffer envelope = {NULL, 0, 0, 0};

    if (part_is_ascii(p)) {
        return is_ascii_address(p);
    }
    start_question(&envelope);
    ask_recipient(&envelope, p, part_of("a@example.org"));
    return ask(&envelope);
}

/* The place of the last @, or p.len. */
static size_t find_domain(part p)
{
    size_t i = p.len;

    while (i > 0) {
        if (p.bytes[--i] == '@') {
            return i;
        }
    }
    return p.len;
}

part local_part_of(part address)
{
    return part_between(address, 0, find_domain(address));
}

part domain_of(part address)
{
    size_t at = find_domain(address);

    return part_between(address, at < address.len ? at + 1 : at,
                        address.len);
}

static int has_a_label(part domain)
{
    size_t i;

    for (i = 0; i + 4 <= domain.len; i++) {
        if (domain.bytes[i + 2] == '-'
            && part_equal_in_any_case(part_between(domain, i, i + 4),
                                      part_of("xn--"))) {
            return 1;
        }
    }
    return 0;
}

/* Whether a domain is ASCII and has no A-label: then IDNA leaves it as it is,
 * but for the case of its letters. */
static int is_plain(part domain)
{
    return part_is_ascii(domain) && !has_a_label(domain);
}

/* Letters past ASCII that NFC and IDNA leave as they are, also beside others of
 * these: from the first of each row to its last. tests/settled.c asks for each. */
static const uint16_t settled[][2] = {
    {0xDF, 0xF6}, {0xF8, 0xFF},   /* Latin, small */
    {0x3AC, 0x3CE},               /* Greek, small */
    {0x430, 0x45F},               /* Cyrillic, small */
    {0x5D0, 0x5EA},               /* Hebrew */
    {0x621, 0x63A}, {0x641, 0x64A},  /* Arabic */
    {0x905, 0x928}, {0x92A, 0x930}, {0x935, 0x939},  /* Devanagari */
    {0x3041, 0x3096}, {0x30A1, 0x30FA},  /* kana */
    {0x4E00, 0x9FFC},             /* Han */
    {0xAC00, 0xD7A3}              /* Hangul */
};

int is_settled_letter(uint32_t c)
{
    size_t i;

    for (i = 0; i < sizeof settled / sizeof settled[0]; i++) {
        if (c >= settled[i][0] && c <= settled[i][1]) {
            return 1;
        }
    }
    return 0;
}

int is_settled(part text)
{
    size_t i = 0;

    while (i < text.len) {
        uint8_t b = text.bytes[i];
        size_t len = b < 0x80 ? 1 : b < 0xE0 ? 2 : 3;
        uint32_t c = b < 0x80 ? b : b < 0xE0 ? b & 0x1F : b & 0x0F;
        size_t k;

        if (b >= 0xF0 || len > text.len - i) {
            return 0;
        }
        for (k = 1; k < len; k++) {
            c = c << 6 | (text.bytes[i + k] & 0x3F);
        }
        if (len > 1 && !is_settled_letter(c)) {
            return 0;
        }
        i += len;
    }
    return 1;
}

int is_settled_domain(part domain)
{
    size_t i;

    for (i = 0; i < domain.len; i++) {
        if (lower_case(domain.bytes[i]) != domain.bytes[i]) {
            return 0;
        }
    }
    return !has_a_label(domain) && is_settled(domain);
}

void add_nfc(buffer *to, part text)
{
    size_t len = 0;
    uint8_t *normal = part_is_ascii(text) ? NULL
                    : u8_normalize(UNINORM_NFC, text.bytes, text.len, NULL,
                                   &len);
    part p;

    if (normal == NULL) {
        buffer_add(to, text);
        return;
    }
    p.bytes = normal;
    p.len = len;
    buffer_add(to, p);
    free(normal);
}

static void add_lower(buffer *to, part text)
{
    size_t i;

    for (i = 0; i < text.len; i++) {
        buffer_add_byte(to, lower_case(text.bytes[i]));
    }
}

/* A domain in A-labels, to be freed; null where IDNA has none for it. */
static uint8_t *a_labels(part domain)
{
    const int flags = IDN2_NFC_INPUT | IDN2_NONTRANSITIONAL
                    | IDN2_USE_STD3_ASCII_RULES;
    buffer text = {NULL, 0, 0, 0};
    uint8_t *labels = NULL;

    buffer_add(&text, domain);
    buffer_add_byte(&text, 0);
    if (text.failed || memchr(domain.bytes, 0, domain.len) != NULL
        || idn2_lookup_u8(text.bytes, &labels, flags) != IDN2_OK) {
        labels = NULL;
    }
    buffer_clear(&text);
    return labels;
}

void add_domain_key(buffer *to, part domain)
{
    uint8_t *labels = is_plain(domain) ? NULL : a_labels(domain);
    buffer normal = {NULL, 0, 0, 0};

    if (labels != NULL) {
        buffer_add_text(to, (const char *)labels);
        idn2_free(labels);
        return;
    }
    add_nfc(&normal, domain);
    add_lower(to, buffer_part(&normal));
    to->failed |= normal.failed;
    buffer_clear(&normal);
}

void add_domain_unicode(buffer *to, part domain)
{
    buffer key = {NULL, 0, 0, 0};
    char *labels = NULL;

    add_domain_key(&key, domain);
    buffer_add_byte(&key, 0);
    if (!key.failed && idn2_to_unicode_8z8z((const char *)key.bytes, &labels,
                                            0) == IDN2_OK) {
        buffer_add_text(to, labels);
        idn2_free(labels);
    } else if (key.len > 0) {
        buffer_add(to, part_between(buffer_part(&key), 0, key.len - 1));
    }
    to->failed |= key.failed;
    buffer_clear(&key);
}

void add_address_key(buffer *to, part address)
{
    add_nfc(to, local_part_of(address));
    buffer_add_byte(to, '@');
    add_domain_key(to, domain_of(address));
}
