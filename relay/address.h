/* Addresses of an envelope, as the library reads them. */
#ifndef ADDRESS_H
#define ADDRESS_H

#include "bytes.h"

/* Whether these bytes, all of them, are an address of the scope paper: local
 * part, @, domain; ASCII or not. So no byte of it can end the path or the line
 * that it is put into. */
int is_address(part p);

int is_ascii_address(part p);

/* An envelope with addresses that are not ASCII and their alternatives, to be
 * asked of the library together by is_envelope: at most two lines for a pair. */
void start_question(buffer *envelope);
void ask_recipient(buffer *envelope, part address, part alternative);

/* What stands before the last @ of an address, and what after it. */
part local_part_of(part address);
part domain_of(part address);

/* Whether a text is sure to be in NFC; and a domain sure to be in U-labels. No is
 * no answer: it has to be made so. */
int is_settled(part text);
int is_settled_domain(part domain);
int is_settled_letter(uint32_t c);

/* Adds a text in the normalization form NFC of Unicode. */
void add_nfc(buffer *to, part text);

/* Adds the spelling by which domains are compared: A-labels in small letters
 * (IDNA 2008 with the mappings of UTS 46); for what IDNA does not take, NFC with
 * ASCII letters made small. */
void add_domain_key(buffer *to, part domain);

/* Adds the same domain in U-labels. */
void add_domain_unicode(buffer *to, part domain);

/* Adds the spelling by which addresses are compared: the local part in NFC, @,
 * the domain's key. */
void add_address_key(buffer *to, part address);

/* Adds an ASCII text as xtext of RFC 3461. */
void add_xtext(buffer *b, part p);

/* The same with a letter for each byte past ASCII. */
void add_letters_xtext(buffer *b, part p);

#endif
