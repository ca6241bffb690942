/* A program without the C library: the archive asks for memcpy and memset and
 * nothing else. Exit status 0 where the paper's whole case comes out right. */
#include <hennelaku.h>

static const char envelope[] =
    "MAIL FROM:<\xC3\xA9@example.org> ALT-ADDRESS=e+2Bx@example.org\r\n"
    "RCPT TO:<b@example.net>\r\n";
static const char header[] = "Subject: \xC3\xA9\r\nX-Note: ok\r\n";

static uint8_t out_envelope[HENNELAKU_ENVELOPE_ROOM_MAX];
static uint8_t out_header[HENNELAKU_HEADER_ROOM_MAX];

void *memcpy(void *to, const void *from, size_t len);
void *memset(void *at, int byte, size_t len);
void run(void);

void *memcpy(void *to, const void *from, size_t len)
{
    volatile uint8_t *t = to;
    const uint8_t *f = from;
    size_t i;

    for (i = 0; i < len; i++) {
        t[i] = f[i];
    }
    return to;
}

void *memset(void *at, int byte, size_t len)
{
    volatile uint8_t *t = at;
    size_t i;

    for (i = 0; i < len; i++) {
        t[i] = (uint8_t)byte;
    }
    return at;
}

__asm__(".globl _start\n_start:\n\txor %ebp, %ebp\n\tand $-16, %rsp\n\tcall run\n");

void run(void)
{
    hennelaku_answer a = hennelaku_downgrade(
        HENNELAKU_SPOOL, (const uint8_t *)envelope, sizeof envelope - 1,
        (const uint8_t *)header, sizeof header - 1,
        out_envelope, sizeof out_envelope, out_header, sizeof out_header);
    hennelaku_mailbox_answer m = hennelaku_downgrade_mailbox(
        (const uint8_t *)header, sizeof header - 1, out_header,
        sizeof out_header);
    hennelaku_read_answer r = hennelaku_read_downgraded(
        (const uint8_t *)header, sizeof header - 1, 0, out_header,
        sizeof out_header);
    int right = m.number == HENNELAKU_OK && m.length == 41
             && r.number == HENNELAKU_READ_NONE
             && a.number == HENNELAKU_OK && a.envelope_len == 54
             && a.header_len == 140 && out_envelope[11] == 'e'
             && hennelaku_version() == HENNELAKU_VERSION
             && hennelaku_smtp_reply(a.number).code == 250
             && hennelaku_number_text(a.number)[0] == 'd';

    /* exit(2) */
    __asm__ volatile("syscall" : : "a"(60), "D"(right ? 0 : 1));
    for (;;) {
    }
}
