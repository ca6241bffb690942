#include "setting.h"

#include <string.h>

#include "check.h"

/* Numbers that all mean a current message: those that become 0 where they are
 * cut to fewer bits among them. */
static const uint64_t current[] = {
    HENNELAKU_CURRENT, 2, 255, 256, 65536, UINT64_C(1) << 31,
    UINT64_C(1) << 32, UINT64_C(1) << 63, UINT64_MAX
};

#define COUNT(array) (sizeof(array) / sizeof(array)[0])

static void test_current_cases(void)
{
    size_t i;

    for (i = 0; i < current_case_count; i++) {
        expect_case(HENNELAKU_CURRENT, &current_cases[i]);
        report(current_cases[i].name);
    }
}

static void test_current_numbers(void)
{
    size_t i;
    size_t j;

    for (i = 0; i < COUNT(current); i++) {
        for (j = 0; j < current_case_count; j++) {
            expect_case(current[i], &current_cases[j]);
        }
    }
    report("every number but 0 is a current message");
}

/* Whether a text has a word, in any letter case. */
static int has(const char *in, const char *word)
{
    size_t i;

    for (; *in != '\0'; in++) {
        for (i = 0; word[i] != '\0'; i++) {
            char c = in[i];

            if (c >= 'a' && c <= 'z') {
                c = (char)(c - 'a' + 'A');
            }
            if (c != word[i]) {
                break;
            }
        }
        if (word[i] == '\0') {
            return 1;
        }
    }
    return 0;
}

/* Where no alternative is named, the setting changes nothing. */
static void test_same_without_alternatives(void)
{
    size_t same = 0;
    size_t i;

    for (i = 0; i < case_count; i++) {
        if (!has(cases[i].envelope, "ALT-ADDRESS")
            && !has(cases[i].header, " <E@X>>")) {
            expect_case(HENNELAKU_CURRENT, &cases[i]);
            same++;
        }
    }
    if (same < 60) {
        blame("only %zu cases name no alternative", same);
    }
    report("cases that name no alternative are the same in current messages");
}

static void test_limits_first(void)
{
    text e = envelope_of(HENNELAKU_MAX_ENVELOPE + 1);
    text h = header_of(HENNELAKU_MAX_HEADER + 1);
    bytes retired = bytes_of("MAIL FROM:<a@x> ALT-ADDRESS=b@x\r\n");

    memcpy(e.at, retired.at, retired.len);
    expect_refusal(HENNELAKU_CURRENT, AREA_EXACT, text_bytes(&e),
                   bytes_of(""), 0, 0, refusal(1, HENNELAKU_ENVELOPE, 0, 0));
    expect_refusal(HENNELAKU_CURRENT, AREA_EXACT, retired, text_bytes(&h), 0,
                   0, refusal(1, HENNELAKU_HEADER, 1, 0));
    report("order: 1 before 10");
    text_free(&e);
    text_free(&h);
}

/* The last line of an envelope: 100 RCPT lines, the 100th with an
 * ALT-ADDRESS. */
static void test_last_line(void)
{
    text e = recipients(HENNELAKU_MAX_RECIPIENTS - 1);
    text t = text_new(e.len + 100);

    text_add(&t, "");
    memcpy(t.at, e.at, e.len);
    t.len = e.len;
    text_add(&t, "RCPT TO:<a@x> ALT-ADDRESS=b@x\r\n");
    expect_refusal(HENNELAKU_CURRENT, AREA_BEFORE_PAGE, text_bytes(&t),
                   bytes_of(""), 0, 0,
                   refusal(HENNELAKU_ALT_ADDRESS_RETIRED, HENNELAKU_ENVELOPE,
                           100, e.len + strlen("RCPT TO:<a@x> ALT-ADDRESS=")));
    report("10 on line 100");
    text_free(&e);
    text_free(&t);
}

void test_settings(void)
{
    test_current_cases();
    test_current_numbers();
    test_same_without_alternatives();
    test_limits_first();
    test_last_line();
}
