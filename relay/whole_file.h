/* Files that are read and written as a whole. */
#ifndef WHOLE_FILE_H
#define WHOLE_FILE_H

#include "bytes.h"

/* Reads a file that nobody writes to while it is read: size and time of change
 * are the same before and after, and that time is past. A file that is replaced
 * by rename stays whole for those who have it open. Returns null, or why it
 * cannot be read. */
const char *read_whole_file(const char *name, size_t limit, buffer *into);

/* Puts a text in the place of a file by rename, so that a reader finds the old
 * text or the new one; a symbolic link stays one, and its file is replaced. The
 * new file has the old one's owner and mode, or mode 0644. Returns null, or what went wrong: then the old file stands. */
const char *replace_file(const char *name, part text);

#endif
