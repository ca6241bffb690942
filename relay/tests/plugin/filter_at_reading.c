/*
 * A plugin for Dovecot, for a test only: each message that is read goes through
 * the program that the setting filter_at_reading names, as by Dovecot's own
 * mail_filter, which Debian does not ship. tests/interop_dovecot shows by it why a
 * site must not do so.
 */
#define _XOPEN_SOURCE 700

#include "lib.h"
#include "istream.h"
#include "mail-storage-private.h"
#include "mail-user.h"
#include "module-context.h"

#include <stdio.h>
#include <sys/wait.h>

#define MAX_READ 65536

const char *filter_at_reading_plugin_version = DOVECOT_ABI_VERSION;

void filter_at_reading_plugin_init(struct module *module);
void filter_at_reading_plugin_deinit(void);

static MODULE_CONTEXT_DEFINE_INIT(filter_module, &mail_module_register);

/* Runs the program from one file to the other. */
static int run_filter(const char *program, FILE *from, FILE *to)
{
    int status = -1;
    pid_t child = fork();

    if (child == 0) {
        if (dup2(fileno(from), 0) == 0 && dup2(fileno(to), 1) == 1) {
            execl(program, program, (char *)NULL);
        }
        _exit(127);
    }
    return child > 0 && waitpid(child, &status, 0) == child && status == 0;
}

static int copy_to_file(struct istream *from, FILE *to)
{
    const unsigned char *bytes;
    size_t size;

    while (i_stream_read_more(from, &bytes, &size) > 0) {
        fwrite(bytes, 1, size, to);
        i_stream_skip(from, size);
    }
    return from->stream_errno == 0 && fflush(to) == 0
        && fseek(to, 0, SEEK_SET) == 0;
}

/* The stream of what the program writes, in place of the message's own. */
static int filter_opened(struct mail *mail, struct istream **stream)
{
    struct mail_private *of_mail = (struct mail_private *)mail;
    union mail_module_context *own = MODULE_CONTEXT(of_mail, filter_module);
    const char *program = mail_user_plugin_getenv(mail->box->storage->user,
                                                  "filter_at_reading");
    FILE *from = tmpfile();
    FILE *to = tmpfile();
    int fd = -1;
    int done = from != NULL && to != NULL && copy_to_file(*stream, from)
        && run_filter(program, from, to);

    if (from != NULL) {
        fclose(from);
    }
    i_stream_unref(stream);
    fd = done ? dup(fileno(to)) : -1;
    *stream = fd >= 0 ? i_stream_create_fd_autoclose(&fd, MAX_READ)
                   : i_stream_create_error_str(EIO, "the filter failed");
    if (to != NULL) {
        fclose(to);
    }
    i_stream_seek(*stream, 0);
    return own->super.istream_opened(mail, stream);
}

static void filter_mail(struct mail *mail)
{
    struct mail_private *of_mail = (struct mail_private *)mail;
    struct mail_vfuncs *v = of_mail->vlast;
    union mail_module_context *own = p_new(of_mail->pool,
                                           union mail_module_context, 1);

    own->super = *v;
    of_mail->vlast = &own->super;
    v->istream_opened = filter_opened;
    MODULE_CONTEXT_SET_SELF(of_mail, filter_module, own);
}

static struct mail_storage_hooks hooks = {.mail_allocated = filter_mail};

void filter_at_reading_plugin_init(struct module *module)
{
    mail_storage_hooks_add(module, &hooks);
}

void filter_at_reading_plugin_deinit(void)
{
    mail_storage_hooks_remove(&hooks);
}
