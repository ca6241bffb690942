#include "delivery.h"

#include <errno.h>
#include <string.h>

#include "lines.h"
#include "message.h"
#include "refusal.h"

/* So many columns of an address and a file's name are told. */
#define MAX_ADDRESS 512
#define MAX_NAME 200

/* So many recipients are told. */
#define MAX_RECIPIENTS 10

static void add_path(buffer *to, part path)
{
    buffer_add_text(to, "<");
    add_readable(to, path, MAX_ADDRESS);
    buffer_add_text(to, ">");
}

/* Ends the delivery. Returns 0. */
static int end(delivery *d, int status, const char *enhanced,
               const char *text)
{
    d->status = status;
    snprintf(d->enhanced, sizeof d->enhanced, "%s", enhanced);
    buffer_add_text(&d->text, text);
    return 0;
}

static int end_no_memory(delivery *d)
{
    return end(d, STATUS_LATER, "4.3.0", "no memory");
}

static void add_remedy(delivery *d, const char *remedy)
{
    buffer_add_text(&d->text, "; what to do: ");
    buffer_add_text(&d->text, remedy);
}

static int read_message(delivery *d, FILE *in)
{
    switch (read_all(in, MAX_MESSAGE, &d->input)) {
    case READ_DONE:
        break;
    case READ_TOO_LONG:
        end(d, STATUS_MESSAGE, "5.3.4", "the message is over the limit of ");
        buffer_add_number(&d->text, MAX_MESSAGE);
        buffer_add_text(&d->text, " bytes");
        return 0;
    case READ_FAILED:
        end(d, STATUS_LATER, "4.3.0", "standard input cannot be read: ");
        buffer_add_text(&d->text, strerror(errno));
        return 0;
    default:
        return end_no_memory(d);
    }
    if (d->input.len == 0) {
        return end(d, STATUS_LATER, "4.3.0", "standard input is empty");
    }
    add_with_crlf(&d->message, buffer_part(&d->input));
    if (d->input.bytes[d->input.len - 1] != '\n') {
        buffer_add_text(&d->message, "\r\n");
    }
    buffer_clear(&d->input);
    return d->message.failed ? end_no_memory(d) : 1;
}

/* A CR that ends no line may not be sent (RFC 5321, section 2.3.8): servers
 * differ in what they take it for. */
static int check_line_ends(delivery *d)
{
    part all = buffer_part(&d->message);
    size_t at = find_lone_cr(all);

    if (at == all.len) {
        return 1;
    }
    end(d, STATUS_MESSAGE, "5.6.0", "line ");
    buffer_add_number(&d->text, count_lines(part_between(all, 0, at)) + 1);
    buffer_add_text(&d->text, " of the message has a CR that does not end it, "
                    "which SMTP forbids");
    add_remedy(d, "take the CR out, and send it again");
    return 0;
}

static void add_requeue(delivery *d)
{
    if (d->options->queue_id != NULL) {
        buffer_add_text(&d->text, "postsuper -r ");
        add_quoted(&d->text, part_of(d->options->queue_id), MAX_NAME);
    } else {
        buffer_add_text(&d->text, "postsuper -r ID");
    }
}

/* Ends the delivery by the alternatives, and a line of them if not 0. */
static int end_by_file(delivery *d, file_fault fault)
{
    end(d, STATUS_LATER, "4.3.5", "");
    add_readable(&d->text, part_of(d->options->alternatives), MAX_NAME);
    if (fault.line > 0) {
        buffer_add_text(&d->text, ":");
        buffer_add_number(&d->text, fault.line);
    }
    buffer_add_text(&d->text, ": ");
    buffer_add_text(&d->text, fault.reason);
    add_remedy(d, d->known.is_table
               ? "mend it, make it by postmap -f, and requeue with "
               : "mend it, put it in place with hennelaku-pipe --install, and "
                 "requeue with ");
    add_requeue(d);
    return 0;
}

/* Whether every address of the envelope is ASCII. */
static int has_ascii_envelope(const delivery *d)
{
    const envelope_addresses *a = &d->options->addresses;
    size_t line;

    for (line = 0; line <= a->recipient_count; line++) {
        if (!part_is_ascii(address_at(a, line))) {
            return 0;
        }
    }
    return 1;
}

/* ASCII addresses have no alternatives, and do not wait for a file of them. */
static int read_alternatives(delivery *d)
{
    file_fault fault;

    return d->options->alternatives == NULL || has_ascii_envelope(d)
        || alternatives_open(&d->known, d->options->alternatives, &fault)
        || end_by_file(d, fault);
}

/* A message with an ASCII envelope and header goes on as it is, whatever its
 * size and its lines: there is nothing to downgrade. */
static int is_untouched(const delivery *d)
{
    return has_ascii_envelope(d) && part_is_ascii(buffer_part(&d->header));
}

static int make_envelope(delivery *d)
{
    const envelope_addresses *a = &d->options->addresses;
    envelope_result r;

    if (a->recipient_count > HENNELAKU_MAX_RECIPIENTS
        && !is_untouched(d)) {
        return end(d, STATUS_LATER, "4.5.3", "more than 100 recipients: set "
                   "the transport's destination_recipient_limit to 1");
    }
    r = add_envelope(&d->envelope, a, &d->known);
    if (r.number == ENVELOPE_ALTERNATIVES) {
        return end_by_file(d, r.fault);
    }
    if (r.number == ENVELOPE_NOT_ADDRESS) {
        end(d, STATUS_MESSAGE, r.line == 0 ? "5.1.7" : "5.1.3", "");
        add_path(&d->text, address_at(a, r.line));
        buffer_add_text(&d->text, ": not an address");
        add_remedy(d, "correct the address, and send it again");
        return 0;
    }
    return d->envelope.failed ? end_no_memory(d) : 1;
}

/* Tells a refusal of the envelope: the address, the rule, what to do. */
static void add_envelope_refusal(delivery *d, const char *rule)
{
    hennelaku_answer answer = d->downgraded.answer;
    const char *file = d->options->alternatives;

    if (answer.number == HENNELAKU_TOO_LONG) {
        buffer_add_text(&d->text, "the addresses have ");
        buffer_add_number(&d->text, d->envelope.len);
        buffer_add_text(&d->text, " bytes; at most ");
        buffer_add_number(&d->text, HENNELAKU_MAX_ENVELOPE);
        buffer_add_text(&d->text, " can be downgraded");
        return;
    }
    add_path(&d->text, address_at(&d->options->addresses, answer.place));
    buffer_add_text(&d->text, ": ");
    buffer_add_text(&d->text, rule);
    if (answer.number != HENNELAKU_NO_ALT_ADDRESS) {
        return;
    }
    if (d->options->setting != HENNELAKU_SPOOL) {
        add_remedy(d, "name an ASCII address, and send it again");
        return;
    }
    add_remedy(d, "add a line for this address to ");
    if (file == NULL) {
        buffer_add_text(&d->text, "a file of alternatives and name it by -a");
    } else {
        add_readable(&d->text, part_of(file), MAX_NAME);
    }
    buffer_add_text(&d->text, "; then send it again, or where the queue has "
                    "it still requeue with ");
    add_requeue(d);
}

static int end_by_library(delivery *d)
{
    hennelaku_answer answer = d->downgraded.answer;
    hennelaku_reply reply = hennelaku_smtp_reply(answer.number);

    if (answer.number == HENNELAKU_TOO_LONG
        && answer.input == HENNELAKU_ENVELOPE
        && d->options->addresses.recipient_count > 1) {
        return end(d, STATUS_LATER, "4.5.3", "the recipients are too long: "
                   "set the transport's destination_recipient_limit to 1");
    }
    end(d, reply.code < 500 ? STATUS_LATER : STATUS_MESSAGE, reply.enhanced,
        "");
    if (answer.input == HENNELAKU_ENVELOPE) {
        add_envelope_refusal(d, reply.text);
    } else if (answer.input == HENNELAKU_HEADER) {
        add_header_refusal(&d->text, buffer_part(&d->header), answer);
        add_remedy(d, header_remedy(answer));
    } else {
        buffer_add_text(&d->text, reply.text);
    }
    return 0;
}

/* Parts header and body, and takes Bcc off. */
static int part_message(delivery *d)
{
    part rest = buffer_part(&d->message);
    part header;

    d->has_empty_line = cut_at_empty_line(&rest, &header);
    if (!d->has_empty_line) {
        header = rest;
        rest = part_between(rest, rest.len, rest.len);
    }
    d->body = rest;
    add_without_bcc(&d->header, header);
    return d->header.failed ? end_no_memory(d) : 1;
}

/* Downgrades envelope and header, or leaves them as they are. */
static int downgrade_message(delivery *d)
{
    if (is_untouched(d)) {
        buffer_add(&d->downgraded.envelope, buffer_part(&d->envelope));
        buffer_add(&d->downgraded.header, buffer_part(&d->header));
        return d->downgraded.envelope.failed || d->downgraded.header.failed
            ? end_no_memory(d) : 1;
    }
    if (!downgrade(d->options->setting, buffer_part(&d->envelope),
                   buffer_part(&d->header), &d->downgraded)) {
        return end_no_memory(d);
    }
    d->is_downgraded = 1;
    d->has_empty_line = 1;
    return d->downgraded.answer.number == HENNELAKU_OK ? 1
        : end_by_library(d);
}

/* Sends the downgraded message. */
static int send_message(delivery *d)
{
    part header = buffer_part(&d->downgraded.header);
    smtp_message m;

    add_data(&d->data, header, d->has_empty_line, d->body);
    if (d->data.failed) {
        return end_no_memory(d);
    }
    m.envelope = buffer_part(&d->downgraded.envelope);
    m.data = buffer_part(&d->data);
    m.size = header.len + (d->has_empty_line ? 2 : 0) + d->body.len;
    m.is_8bit = !part_is_ascii(d->body);
    smtp_deliver(&d->options->smtp, &m, &d->sent);
    d->status = d->sent.outcome == SMTP_SENT ? STATUS_DELIVERED
              : d->sent.outcome == SMTP_REFUSED ? STATUS_NEXT_HOP
              : STATUS_LATER;
    memcpy(d->enhanced, d->sent.enhanced, sizeof d->enhanced);
    if (d->status == STATUS_DELIVERED && is_loopback(d->options->smtp.hop)) {
        buffer_add_text(&d->text, "re-injected: ");
    }
    buffer_add(&d->text, buffer_part(&d->sent.text));
    return d->status == STATUS_DELIVERED;
}

int prepare(delivery *d, const delivery_options *options, FILE *in)
{
    d->options = options;
    d->status = STATUS_LATER;
    if (!library_fits()) {
        return end(d, STATUS_LATER, "4.3.5",
                   "the library is of another version");
    }
    return read_message(d, in) && check_line_ends(d) && part_message(d)
        && read_alternatives(d) && make_envelope(d) && downgrade_message(d);
}

void deliver(delivery *d, const delivery_options *options, FILE *in)
{
    if (prepare(d, options, in)) {
        send_message(d);
    }
}

/* An address and what it became. */
static void add_became(buffer *to, const delivery *d, size_t line)
{
    part old = address_at(&d->options->addresses, line);
    part path = path_at(buffer_part(&d->downgraded.envelope), line);

    buffer_add_text(to, line == 0 ? "from=" : ", to=");
    add_path(to, old);
    if (path.len > 0) {
        part new = part_between(path, 1, path.len - 1);

        if (!part_equal(old, new)) {
            buffer_add_text(to, " as ");
            add_path(to, new);
        }
    }
}

void add_log_line(buffer *to, const delivery *d)
{
    size_t count = d->options->addresses.recipient_count;
    size_t line;

    add_quoted(to, part_of(d->options->queue_id == NULL
                           ? "NOQUEUE" : d->options->queue_id), MAX_NAME);
    buffer_add_text(to, ": ");
    for (line = 0; line <= count && line <= MAX_RECIPIENTS; line++) {
        add_became(to, d, line);
    }
    if (count > MAX_RECIPIENTS) {
        buffer_add_text(to, ", and ");
        buffer_add_number(to, count - MAX_RECIPIENTS);
        buffer_add_text(to, " more");
    }
    buffer_add_text(to, ", answer=");
    if (d->is_downgraded) {
        buffer_add_number(to, d->downgraded.answer.number);
    } else {
        buffer_add_text(to, "none");
    }
    buffer_add_text(to, ", relay=");
    add_quoted(to, part_of(d->options->smtp.hop->name), MAX_NAME);
    buffer_add_text(to, ", reply=\"");
    buffer_add(to, buffer_part(&d->sent.reply));
    buffer_add_text(to, d->status == STATUS_DELIVERED ? "\", status=sent ("
                      : d->status == STATUS_LATER ? "\", status=deferred ("
                      : "\", status=bounced (");
    buffer_add_text(to, d->enhanced);
    buffer_add_text(to, " ");
    buffer_add(to, buffer_part(&d->text));
    buffer_add_text(to, ")");
}

void delivery_clear(delivery *d)
{
    buffer_clear(&d->input);
    buffer_clear(&d->message);
    alternatives_clear(&d->known);
    buffer_clear(&d->envelope);
    buffer_clear(&d->header);
    buffer_clear(&d->data);
    downgraded_clear(&d->downgraded);
    buffer_clear(&d->sent.text);
    buffer_clear(&d->sent.reply);
    buffer_clear(&d->text);
    memset(d, 0, sizeof *d);
}
