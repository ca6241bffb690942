/* A message from a queue, shown as hennelaku-pipe would send it. */
#ifndef QUEUED_H
#define QUEUED_H

#define QUEUED_USAGE \
    "hennelaku --from SENDER --to RECIPIENT.. [--alternatives FILE | " \
    "--current] [FILE|-]"

/* Whether the arguments have one of the options that name an envelope. */
int is_queued(int argc, char **argv);

/* Reads a header and body, makes of them and of the envelope that the options
 * name what hennelaku-pipe would send, and prints it, or why it would not. Sends
 * nothing, and changes nothing. Returns an exit status of sysexits.h. */
int show_queued(int argc, char **argv);

#endif
