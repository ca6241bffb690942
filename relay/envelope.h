/* The envelope of a delivery, as the library takes it. */
#ifndef ENVELOPE_H
#define ENVELOPE_H

#include "alternatives.h"
#include "bytes.h"

typedef struct envelope_addresses {
    part sender;  /* empty for the null sender */
    const char *const *recipients;
    size_t recipient_count;
} envelope_addresses;

enum envelope_fault {
    ENVELOPE_GOOD,
    ENVELOPE_NOT_ADDRESS,   /* `line` says which */
    ENVELOPE_ALTERNATIVES   /* `fault` says what */
};

typedef struct envelope_result {
    enum envelope_fault number;
    size_t line;  /* of the envelope, from 0 */
    file_fault fault;
} envelope_result;

/* The address on a line of the envelope: 0 is the sender's. */
part address_at(const envelope_addresses *a, size_t line);

/* Adds `MAIL FROM:<..>` and for each recipient `RCPT TO:<..>`, with ALT-ADDRESS
 * where an address is not ASCII and has a known alternative. */
envelope_result add_envelope(buffer *to, const envelope_addresses *a,
                             const alternatives *known);

/* The path on a line of an outgoing envelope. */
part path_at(part envelope, size_t line);

#endif
