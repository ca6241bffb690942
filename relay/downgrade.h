/* The call of the library, in one place for both programs. */
#ifndef DOWNGRADE_H
#define DOWNGRADE_H

#include "bytes.h"
#include "hennelaku.h"

/* What became of a message. */
typedef struct downgraded {
    hennelaku_answer answer;
    buffer envelope;  /* outgoing, where the number is 0 */
    buffer header;
} downgraded;

/* Whether the library that is linked is that of the header. */
int library_fits(void);

/* Downgrades an envelope and a header. Returns 0 where there is no memory. */
int downgrade(uint64_t setting, part envelope, part header, downgraded *d);

void downgraded_clear(downgraded *d);

/* Whether the library takes this envelope in the spool: the numbers 1 to 4 are
 * not answered for it. */
int is_envelope(part envelope);

#endif
