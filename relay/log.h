/* The line that each message has in a log. */
#ifndef LOG_H
#define LOG_H

#include "bytes.h"

/* Writes a line, without an LF, to a file, or where that is null or cannot be
 * written to the mail log: by postlog(1), which knows where that is, or where it
 * is not there by syslog(3). */
void write_log(const char *file, buffer *line);

#endif
