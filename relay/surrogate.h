/* A message in ASCII that stands for one that cannot be downgraded (RFC 6857,
 * section 1.2). */
#ifndef SURROGATE_H
#define SURROGATE_H

#include "bytes.h"

/* Adds such a message, its lines ended by CRLF in the header and its parts:
 * what can be downgraded of From, To, Subject and Date, the reason, and the
 * original in base64 just as it came. `header` is the original's, its lines
 * ended by CRLF; the reason is printable ASCII. */
void add_surrogate(buffer *to, part header, part original, part reason);

#endif
