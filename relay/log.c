#define _XOPEN_SOURCE 700

#include "log.h"

#include <errno.h>
#include <fcntl.h>
#include <signal.h>
#include <sys/wait.h>
#include <syslog.h>
#include <time.h>
#include <unistd.h>

#define POSTLOG "/usr/sbin/postlog"
#define NAME "hennelaku-pipe"

/* postlog(1) has so many hundredths of a second. */
#define POSTLOG_TIME 500

/* Appends a line to a file in one write, so that lines of two processes do not
 * mix. */
static int append_line(const char *file, buffer *line)
{
    int fd = open(file, O_WRONLY | O_APPEND | O_CREAT | O_CLOEXEC, 0640);
    int is_written;

    if (fd < 0) {
        return 0;
    }
    buffer_add_text(line, "\n");
    is_written = write(fd, line->bytes, line->len) == (ssize_t)line->len;
    line->len--;
    return close(fd) == 0 && is_written;
}

/* Becomes postlog, with no file of ours open. */
static void become_postlog(char *text)
{
    char *arguments[] = {POSTLOG, "-t", NAME, "-p", "info", "--", NULL, NULL};
    int null = open("/dev/null", O_RDWR);

    arguments[6] = text;
    if (null >= 0) {
        dup2(null, 0);
        dup2(null, 1);
        dup2(null, 2);
        execv(POSTLOG, arguments);
    }
    _exit(127);
}

/* Waits for postlog, which is ended where it takes too long. */
static int wait_for(pid_t child)
{
    const struct timespec pause = {0, 10000000};
    int status = -1;
    int i;

    for (i = 0; i < POSTLOG_TIME; i++) {
        pid_t done = waitpid(child, &status, WNOHANG);

        if (done == child) {
            return WIFEXITED(status) && WEXITSTATUS(status) == 0;
        }
        if (done < 0 && errno != EINTR) {
            return 0;
        }
        nanosleep(&pause, NULL);
    }
    kill(child, SIGKILL);
    waitpid(child, &status, 0);
    return 0;
}

static int log_by_postlog(buffer *line)
{
    pid_t child;

    if (access(POSTLOG, X_OK) != 0) {
        return 0;
    }
    buffer_add_byte(line, 0);
    line->len -= line->failed ? 0 : 1;
    if (line->failed) {
        return 0;
    }
    child = fork();
    if (child == 0) {
        become_postlog((char *)line->bytes);
    }
    return child > 0 && wait_for(child);
}

void write_log(const char *file, buffer *line)
{
    if (line->failed
        || (file != NULL && append_line(file, line))
        || log_by_postlog(line)) {
        return;
    }
    openlog(NAME, LOG_PID, LOG_MAIL);
    syslog(LOG_INFO, "%.*s", (int)line->len, (const char *)line->bytes);
    closelog();
}
