#include "mailbox.h"

#include <stdio.h>
#include <string.h>

#include "check.h"
#include "lent.h"

/* A call in one kind of memory that is to answer and to write just this. */
static void expect_mailbox(area_kind kind, bytes header, size_t room,
                           hennelaku_mailbox_answer want, bytes written)
{
    lent l = lent_new(kind, header, room);
    hennelaku_mailbox_answer a = hennelaku_downgrade_mailbox(
        l.input.at, header.len, l.buffer.at, room);

    if (a.number != want.number || a.place != want.place
        || a.offset != want.offset || a.length != want.length) {
        blame("%u at %zu, byte %zu, length %zu; not %u at %zu, byte %zu, "
              "length %zu", (unsigned)a.number, a.place, a.offset, a.length,
              (unsigned)want.number, want.place, want.offset, want.length);
    }
    lent_expect(&l, written);
    lent_free(&l);
}

static hennelaku_mailbox_answer mailbox_refusal(uint32_t number, size_t place,
                                                size_t offset)
{
    hennelaku_mailbox_answer a = {number, place, offset, 0};

    return a;
}

static hennelaku_mailbox_answer mailbox_taken(size_t length)
{
    hennelaku_mailbox_answer a = {HENNELAKU_OK, 0, 0, length};

    return a;
}

/* With ample room, with just enough, with one byte less and with none. */
static void expect_taken(bytes header, bytes out)
{
    bytes none = {NULL, 0};
    int kind;

    for (kind = 0; kind < AREA_KINDS; kind++) {
        area_kind k = (area_kind)kind;

        expect_mailbox(k, header, out.len + 100, mailbox_taken(out.len), out);
        expect_mailbox(k, header, HENNELAKU_HEADER_ROOM_FOR(header.len),
                       mailbox_taken(out.len), out);
        expect_mailbox(k, header, out.len, mailbox_taken(out.len), out);
        if (out.len > 0) {
            hennelaku_mailbox_answer a = mailbox_refusal(
                HENNELAKU_HEADER_ROOM, out.len, 0);

            expect_mailbox(k, header, out.len - 1, a, none);
            expect_mailbox(k, header, 0, a, none);
        }
    }
}

/* With ample room, and with none, since 8 comes last. */
static void expect_refused(bytes header, hennelaku_mailbox_answer want)
{
    bytes none = {NULL, 0};
    int kind;

    for (kind = 0; kind < AREA_KINDS; kind++) {
        expect_mailbox((area_kind)kind, header,
                       HENNELAKU_HEADER_ROOM_FOR(header.len), want, none);
        expect_mailbox((area_kind)kind, header, 0, want, none);
    }
}

typedef struct mailbox_case {
    const char *name;
    const char *header;
    const char *out;
} mailbox_case;

#define E "\xC3\xA9"
#define ROW(spelling) "\r\n =?UTF-8?Q?" spelling "?="
#define WORD(spelling) " =?UTF-8?Q?" spelling "?=\r\n"

static const mailbox_case taken[] = {
    {"an empty header", "", ""},
    {"ASCII is copied", "Subject:  a\r\n b \r\nX: (b\r\n", "Subject:  a\r\n b \r\nX: (b\r\n"},
    {"plain text", "Subject: " E "\r\n", "Subject:" WORD("=C3=A9")},
    {"another name", "x-note: " E "\r\n", "x-note:" WORD("=C3=A9")},
    {"another name: brackets and lists are text", "List-Post: <" E "@x>, (a)\r\n",
     "List-Post:" WORD("=3C=C3=A9=40x=3E=2C_=28a=29")},
    {"a Downgraded- field that came in", "Downgraded-To: " E "\r\n", "Downgraded-To:" WORD("=C3=A9")},
    {"a bare address", "To: " E "@x\r\n", "To:" ROW("=C3=A9=40x") "\r\n :;\r\n"},
    {"an address in brackets", "To: <" E "@x>\r\n", "To:" ROW("=C3=A9=40x") "\r\n :;\r\n"},
    {"an address with its quotes", "To: \"" E "\"@x\r\n", "To:" ROW("=22=C3=A9=22=40x") "\r\n :;\r\n"},
    {"an ASCII phrase", "To: a \"b\" <" E "@x>\r\n", "To:\r\n a\r\n \"b\"" ROW("=C3=A9=40x") "\r\n :;\r\n"},
    {"another phrase: two rows", "To: " E " <" E "@x>\r\n", "To:" ROW("=C3=A9") ROW("=C3=A9=40x") "\r\n :;\r\n"},
    {"a comma after :;", "To: " E "@x , b@x\r\n", "To:" ROW("=C3=A9=40x") "\r\n :;,\r\n b@x\r\n"},
    {"an ASCII address", "To: " E " <b@x>\r\n", "To:" ROW("=C3=A9") "\r\n <b@x>\r\n"},
    {"a domain in UTF-8", "From: a@" E "\r\n", "From:" ROW("a=40=C3=A9") "\r\n :;\r\n"},
    {"a group with such a member", "Cc: g: " E "@x, b@x ;\r\n", "Cc:\r\n g" ROW("=C3=A9=40x=2C_b=40x") "\r\n :;\r\n"},
    {"a group and its phrase", "Cc: " E ":" E "@x;\r\n", "Cc:" ROW("=C3=A9") ROW("=C3=A9=40x") "\r\n :;\r\n"},
    {"a group in ASCII but for a phrase", "Cc: g: " E " <b@x>;\r\n",
     "Cc:\r\n g\r\n :" ROW("=C3=A9") "\r\n <b@x>\r\n ;\r\n"},
    {"no copies", "Sender: " E "@x\r\nX: b\r\n", "Sender:" ROW("=C3=A9=40x") "\r\n :;\r\nX: b\r\n"},
    {"an inner alternative", "To: <" E "@x <e@x>>\r\n", "Downgraded-To:" WORD("=3C=C3=A9=40x_=3Ce=40x=3E=3E")},
    {"no list of addresses", "To: " E "\r\n", "Downgraded-To:" WORD("=C3=A9")},
    {"Message-ID", "Message-ID: <" E "@x>\r\n", "Downgraded-Message-ID:" WORD("=3C=C3=A9=40x=3E")},
    {"References, a comment with it", "references: (" E ") <" E ">\r\n",
     "Downgraded-references:" WORD("=28=C3=A9=29_=3C=C3=A9=3E")},
    {"In-Reply-To, an unclosed parenthesis", "In-Reply-To: (" E "\r\n", "Downgraded-In-Reply-To:" WORD("=28=C3=A9")},
    {"Resent-Message-ID", "Resent-Message-ID: " E "\r\n", "Downgraded-Resent-Message-ID:" WORD("=C3=A9")}
};

static void test_taken(void)
{
    size_t i;

    for (i = 0; i < sizeof taken / sizeof taken[0]; i++) {
        char name[100];

        expect_taken(bytes_of(taken[i].header), bytes_of(taken[i].out));
        snprintf(name, sizeof name, "mailbox: %s", taken[i].name);
        report(name);
    }
}

/* Fields that are treated as in a current message of the relay. */
static void test_as_relay(void)
{
    static const char *const same[] = {
        "Date: a (" E ")\r\n", "Received: from x (" E ") for <" E "@x>; a\r\n",
        "Comments: a\r\n " E "\r\n", "Message-ID: <a@x> (" E ")\r\n",
        "MIME-Version: 1.0 (" E "(" E "))\r\n",
        "Content-Type: a; n=" E " (" E "); m=\"" E "\"; b=c\r\n",
        "Content-Disposition: a;\r\n filename=\"" E E E E E E E E E E E E "\"\r\n",
        "From: " E " (" E ") <a@x>\r\nSubject: a\r\n\t" E E "\r\n"
    };
    uint8_t envelope_out[100];
    uint8_t header_out[1000];
    bytes envelope = bytes_of(PLAIN);
    size_t i;

    for (i = 0; i < sizeof same / sizeof same[0]; i++) {
        bytes header = bytes_of(same[i]);
        hennelaku_answer a = hennelaku_downgrade(
            HENNELAKU_CURRENT, envelope.at, envelope.len, header.at,
            header.len, envelope_out, sizeof envelope_out, header_out,
            sizeof header_out);
        bytes out = {header_out, a.header_len};

        if (a.number != HENNELAKU_OK || out.len == 0) {
            blame("%s is refused in the relay", same[i]);
        }
        expect_taken(header, out);
    }
    report("mailbox: what is as in the relay");
}

/* Names that RFC 6857 lists for comments go as Date. */
static void test_commented(void)
{
    static const char *const names[] = {
        "Content-Language", "ACCEPT-Language", "auto-submitted"
    };
    uint8_t out[200];
    size_t i;

    for (i = 0; i < sizeof names / sizeof names[0]; i++) {
        bytes date = bytes_of("Date: a (" E ")\r\n");
        hennelaku_mailbox_answer a = hennelaku_downgrade_mailbox(
            date.at, date.len, out, sizeof out);
        char header[100];
        char want[300];

        snprintf(header, sizeof header, "%s: a (" E ")\r\n", names[i]);
        snprintf(want, sizeof want, "%s%.*s", names[i], (int)a.length - 4,
                 (const char *)out + 4);
        expect_taken(bytes_of(header), bytes_of(want));
        snprintf(header, sizeof header, "%s: a " E " (b)\r\n", names[i]);
        expect_refused(bytes_of(header),
                       mailbox_refusal(HENNELAKU_HELD, 0,
                                       strlen(names[i]) + 4));
    }
    report("mailbox: names that go as Date");
}

static void test_refused(void)
{
    text longest = header_of(HENNELAKU_MAX_HEADER);
    text too_long = header_of(HENNELAKU_MAX_HEADER + 1);

    expect_taken(text_bytes(&longest), text_bytes(&longest));
    expect_refused(text_bytes(&too_long),
                   mailbox_refusal(HENNELAKU_TOO_LONG, 1, 0));
    too_long.at[0] = '\0';
    expect_refused(text_bytes(&too_long),
                   mailbox_refusal(HENNELAKU_TOO_LONG, 1, 0));
    text_free(&longest);
    text_free(&too_long);
    report("mailbox: 1");
    expect_refused(bytes_of("X: b\r\nY\r\n"),
                   mailbox_refusal(HENNELAKU_HEADER_LINE, 1, 7));
    expect_refused(bytes_of("X: b\r\n" E ": a\r\n"),
                   mailbox_refusal(HENNELAKU_HEADER_LINE, 1, 6));
    expect_refused(bytes_of("X: b"),
                   mailbox_refusal(HENNELAKU_HEADER_LINE, 0, 4));
    expect_refused(bytes_of("Keywords: " E "\r\nX: \xC3\r\n"),
                   mailbox_refusal(HENNELAKU_HEADER_LINE, 1, 18));
    report("mailbox: 5, and before 6");
    expect_refused(bytes_of("X: b\r\nKeywords: a,\r\n " E "\r\n"),
                   mailbox_refusal(HENNELAKU_HELD, 1, 21));
    expect_refused(bytes_of("Date: (a) " E "\r\n"),
                   mailbox_refusal(HENNELAKU_HELD, 0, 10));
    expect_refused(bytes_of("To: " E "\r\nReceived: " E "\r\n"),
                   mailbox_refusal(HENNELAKU_HELD, 1, 18));
    expect_refused(bytes_of("Original-Recipient: " E "\r\nfinal-recipient: "
                            E "\r\n"),
                   mailbox_refusal(HENNELAKU_HELD, 0, 20));
    expect_refused(bytes_of("final-recipient: " E "\r\n"),
                   mailbox_refusal(HENNELAKU_HELD, 0, 17));
    expect_refused(bytes_of("Content-ID: " E "\r\n"),
                   mailbox_refusal(HENNELAKU_HELD, 0, 12));
    expect_refused(bytes_of("Content-Transfer-Encoding: 8bit " E "\r\n"),
                   mailbox_refusal(HENNELAKU_HELD, 0, 32));
    expect_refused(bytes_of("Content-Type: a; n*=" E "\r\n"),
                   mailbox_refusal(HENNELAKU_HELD, 0, 20));
    expect_refused(bytes_of("Content-Disposition: " E "; n=a\r\n"),
                   mailbox_refusal(HENNELAKU_HELD, 0, 21));
    report("mailbox: 6, and before 8");
}

/* Null pointers with a length of 0. */
static void test_null(void)
{
    bytes header = bytes_of("X: b\r\n");
    uint8_t buffer[1] = {AREA_FILL};
    hennelaku_mailbox_answer a = hennelaku_downgrade_mailbox(NULL, 0, NULL, 0);

    if (a.number != HENNELAKU_OK || a.length != 0) {
        blame("%u for nothing", (unsigned)a.number);
    }
    a = hennelaku_downgrade_mailbox(NULL, 0, buffer, 1);
    if (a.number != HENNELAKU_OK || a.length != 0 || buffer[0] != AREA_FILL) {
        blame("%u for an empty header", (unsigned)a.number);
    }
    a = hennelaku_downgrade_mailbox(header.at, header.len, NULL, 0);
    if (a.number != HENNELAKU_HEADER_ROOM || a.place != header.len) {
        blame("%u for no buffer", (unsigned)a.number);
    }
    report("mailbox: null with 0");
}

void test_mailbox(void)
{
    test_taken();
    test_as_relay();
    test_commented();
    test_refused();
    test_null();
}
