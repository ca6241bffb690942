/* The options of hennelaku-pipe. */
#ifndef SETTINGS_H
#define SETTINGS_H

#include "delivery.h"

typedef struct settings {
    delivery_options delivery;
    smtp_hop hop;
    char own_name[256];
    const char *log;  /* null for the mail log */
    int has_sender;
    buffer fault;     /* the option that is wrong and why, in UTF-8 */
} settings;

/* Reads the options. Returns 0 where they are wrong: then `fault` says how, and
 * the log and the queue's name of the message are set where they were given. */
int read_settings(settings *s, int argc, char **argv);

#endif
