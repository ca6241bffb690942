#define _XOPEN_SOURCE 700

#include "whole_file.h"

#include <errno.h>
#include <fcntl.h>
#include <stdio.h>
#include <stdlib.h>
#include <string.h>
#include <sys/stat.h>
#include <time.h>
#include <unistd.h>

/* Two changes within a tick of the kernel's clock have one time: a file has to
 * be as old as this. */
#define SETTLED_NS 20000000L

/* So often a file that changes is read again. */
#define MAX_TRIES 10

static int same_state(const struct stat *a, const struct stat *b)
{
    return a->st_size == b->st_size
        && a->st_mtim.tv_sec == b->st_mtim.tv_sec
        && a->st_mtim.tv_nsec == b->st_mtim.tv_nsec;
}

static int is_settled(const struct stat *state)
{
    struct timespec now;
    long long age;

    clock_gettime(CLOCK_REALTIME, &now);
    age = (long long)(now.tv_sec - state->st_mtim.tv_sec) * 1000000000
        + (now.tv_nsec - state->st_mtim.tv_nsec);
    return age >= SETTLED_NS || age < 0;
}

/* Reads all of an open file from its start. */
static const char *read_open_file(int fd, size_t limit, buffer *into)
{
    ssize_t got;

    into->len = 0;
    do {
        if (!buffer_reserve(into, 65536)) {
            return "no memory";
        }
        got = pread(fd, into->bytes + into->len, into->room - into->len,
                    (off_t)into->len);
        if (got < 0 && errno != EINTR) {
            return strerror(errno);
        }
        into->len += got > 0 ? (size_t)got : 0;
        if (into->len > limit) {
            return "too long";
        }
    } while (got != 0);
    return NULL;
}

/* Reads an open file until it was the same before and after. */
static const char *read_settled(int fd, size_t limit, buffer *into)
{
    const struct timespec pause = {0, SETTLED_NS};
    const char *reason;
    struct stat before;
    struct stat after;
    int tries;

    for (tries = 0; tries < MAX_TRIES; tries++) {
        if (tries > 0) {
            nanosleep(&pause, NULL);
        }
        if (fstat(fd, &before) != 0) {
            return strerror(errno);
        }
        if (!S_ISREG(before.st_mode)) {
            return S_ISDIR(before.st_mode) ? strerror(EISDIR)
                                           : "not a regular file";
        }
        reason = read_open_file(fd, limit, into);
        if (reason != NULL) {
            return reason;
        }
        if (fstat(fd, &after) == 0 && same_state(&before, &after)
            && into->len == (size_t)after.st_size && is_settled(&after)) {
            return NULL;
        }
    }
    return "it changes while it is read";
}

const char *read_whole_file(const char *name, size_t limit, buffer *into)
{
    int fd = open(name, O_RDONLY | O_CLOEXEC | O_NONBLOCK | O_NOCTTY);
    const char *reason;

    if (fd < 0) {
        return strerror(errno);
    }
    reason = read_settled(fd, limit, into);
    close(fd);
    return reason;
}

/* Writes a text to a new file, and sees that it is on the disk. */
static int write_new(int fd, part text, const struct stat *old)
{
    while (text.len > 0) {
        ssize_t written = write(fd, text.bytes, text.len);

        if (written < 0 && errno != EINTR) {
            return 0;
        }
        text = part_between(text, written > 0 ? (size_t)written : 0,
                            text.len);
    }
    if (old != NULL && fchown(fd, old->st_uid, old->st_gid) != 0) {
        return 0;
    }
    return fchmod(fd, old != NULL ? old->st_mode & 07777 : 0644) == 0
        && fsync(fd) == 0;
}

/* A rename lasts when its folder is on the disk. */
static int sync_folder(const char *name)
{
    const char *slash = strrchr(name, '/');
    char *folder = slash == NULL ? strdup(".")
                 : strndup(name, (size_t)(slash - name) + 1);
    int fd = folder == NULL ? -1 : open(folder, O_RDONLY | O_CLOEXEC);
    int is_done = fd >= 0 && fsync(fd) == 0;

    if (fd >= 0) {
        close(fd);
    }
    free(folder);
    return is_done;
}

/* Writes a file beside another, and renames it to that. */
static const char *replace_at(const char *name, part text)
{
    size_t room = strlen(name) + sizeof ".XXXXXX";
    char *new_name = malloc(room);
    struct stat old;
    int has_old = stat(name, &old) == 0;
    int is_done;
    int error;
    int fd;

    if (new_name == NULL) {
        return "no memory";
    }
    snprintf(new_name, room, "%s.XXXXXX", name);
    fd = mkstemp(new_name);
    if (fd < 0) {
        free(new_name);
        return strerror(errno);
    }
    is_done = write_new(fd, text, has_old ? &old : NULL);
    error = errno;
    if (close(fd) != 0 && is_done) {
        is_done = 0;
        error = errno;
    }
    if (is_done && rename(new_name, name) != 0) {
        is_done = 0;
        error = errno;
    }
    if (!is_done) {
        unlink(new_name);
    } else if (!sync_folder(name)) {
        is_done = 0;
        error = errno;
    }
    free(new_name);
    return is_done ? NULL : strerror(error);
}

const char *replace_file(const char *name, part text)
{
    char *place = realpath(name, NULL);
    const char *reason = replace_at(place == NULL ? name : place, text);

    free(place);
    return reason;
}
