/* Tests of how hennelaku shows a byte of a line, on lines that no message file
 * brings to it as well. One line for each: ok or FAIL. */
#include <stdlib.h>
#include <string.h>

#include "../lines.h"
#include "check.h"

#define ROWS 2000

/* What hennelaku shows for a byte of a line: the line and the mark, as rows
 * without their LF. */
typedef struct shown {
    char line[ROWS];
    char mark[ROWS];
} shown;

static part_line line_of_bytes(bytes b, int has_crlf)
{
    part_line l = {0, 0, {NULL, 0}, 0};

    l.text.bytes = b.at;
    l.text.len = b.len;
    l.has_crlf = has_crlf;
    return l;
}

/* Reads a row of printable ASCII. */
static void read_row(FILE *from, char *row)
{
    size_t i = 0;
    int c;

    while ((c = getc(from)) != '\n') {
        if (c < 32 || c > 126 || i + 1 == ROWS) {
            blame("byte %d in a row, at %zu", c, i);
            break;
        }
        row[i++] = (char)c;
    }
    row[i] = '\0';
}

static shown show(bytes b, int has_crlf, size_t at)
{
    part_line l = line_of_bytes(b, has_crlf);
    FILE *file = tmpfile();
    shown s;

    if (file == NULL) {
        fputs("no file for a test\n", stderr);
        exit(2);
    }
    print_marked(file, &l, at);
    rewind(file);
    read_row(file, s.line);
    read_row(file, s.mark);
    if (getc(file) != EOF) {
        blame("more than two rows");
    }
    fclose(file);
    return s;
}

static void expect_shown(const char *name, const char *of, int has_crlf,
                         size_t at, const char *line, const char *mark)
{
    shown s = show(bytes_of(of), has_crlf, at);

    if (strcmp(s.line, line) != 0 || strcmp(s.mark, mark) != 0) {
        blame("%s and %s", s.line, s.mark);
    }
    report(name);
}

static void test_rows(void)
{
    expect_shown("mark under a letter", "A b", 1, 1, "\"A b\"", "  ^");
    expect_shown("mark after what takes two columns", "\"\\b", 1, 2,
                 "\"\\\"\\\\b\"", "     ^");
    expect_shown("mark after what takes four columns", E_ACUTE "\033b", 1, 3,
                 "\"\\xc3\\xa9\\x1bb\"", "             ^");
    expect_shown("mark under the first column of four", "a\177", 1, 1,
                 "\"a\\x7f\"", "  ^");
    expect_shown("mark for the CR", "ab", 1, 2, "\"ab\"",
                 "   ^ the CR at the end of the line");
    expect_shown("mark for the LF", "ab", 1, 3, "\"ab\"",
                 "   ^ the LF at the end of the line");
    expect_shown("mark for the end", "ab\r", 0, 3, "\"ab\\x0d\"",
                 "       ^ the end of the line");
    expect_shown("mark for the CR of an empty line", "", 1, 0, "\"\"",
                 " ^ the CR at the end of the line");
}

/* One byte that no other of the line equals, at every place of short and long
 * lines: the mark stands under it, on one row of 80 columns. */
static void expect_under(uint8_t other, uint8_t unlike, const char *quoted,
                         size_t len, size_t at)
{
    text t = text_new(len);
    shown s;
    size_t column;

    text_fill(&t, (char)other, len);
    t.at[at] = unlike;
    s = show(text_bytes(&t), 1, at);
    column = strlen(s.mark) - 1;
    if (strspn(s.mark, " ") != column || s.mark[column] != '^') {
        blame("the mark is %s", s.mark);
    }
    if (column >= strlen(s.line)
        || strncmp(s.line + column, quoted, strlen(quoted)) != 0) {
        blame("byte %zu of %zu: %s and %s", at, len, s.line, s.mark);
    }
    if (strlen(s.line) > 80) {
        blame("%zu columns", strlen(s.line));
    }
    text_free(&t);
}

static void test_places(void)
{
    static const size_t lens[] = {1, 2, 17, 18, 35, 36, 69, 70, 71, 72, 200};
    size_t i;
    size_t at;

    for (i = 0; i < sizeof lens / sizeof lens[0]; i++) {
        for (at = 0; at < lens[i]; at++) {
            expect_under('a', 'b', "b", lens[i], at);
            expect_under('a', 0, "\\x00", lens[i], at);
            expect_under('a', '"', "\\\"", lens[i], at);
            expect_under('"', 'a', "a", lens[i], at);
            expect_under(0x80, '\\', "\\\\", lens[i], at);
            expect_under(0x80, 0xFF, "\\xff", lens[i], at);
        }
    }
    report("the mark under each byte of short and long lines");
}

/* A long line's end has no dots after it. */
static void test_long_end(void)
{
    text t = text_new(500);
    shown s;

    text_fill(&t, 'a', 500);
    s = show(text_bytes(&t), 1, 500);
    if (strncmp(s.line, "...\"aaa", 7) != 0
        || strspn(s.line + 4, "a") != MAX_QUOTED
        || strcmp(s.line + 4 + MAX_QUOTED, "\"") != 0) {
        blame("%s", s.line);
    }
    if (strspn(s.mark, " ") != 4 + MAX_QUOTED) {
        blame("%s", s.mark);
    }
    report("the CR of a long line");
    text_free(&t);
}

static void expect_column(const char *of, size_t at, size_t want)
{
    part_line l = line_of_bytes(bytes_of(of), 1);
    size_t column = character_column(l.text, at);

    if (column != want) {
        blame("byte %zu of %s is character %zu, not %zu", at, of, column,
              want);
    }
}

static void test_columns(void)
{
    expect_column("", 0, 1);
    expect_column("ab", 1, 2);
    expect_column(E_ACUTE "b", 0, 1);
    expect_column(E_ACUTE "b", 1, 1);
    expect_column(E_ACUTE "b", 2, 2);
    expect_column("\xE2\x82\xAC\xF0\x9F\x98\x80" "b", 7, 3);
    report("columns of characters");
    expect_column("a\xC3(", 2, 3);
    expect_column("\xED\xA0\x80", 2, 3);
    expect_column("\xF4\x90\x80\x80", 1, 2);
    expect_column("\xE0\x9F\xBF", 3, 4);
    expect_column("\xC0\xAF" "b", 2, 3);
    expect_column("\xE2\x82", 2, 3);
    expect_column("\xE2\x82" E_ACUTE "b", 4, 4);
    report("columns of bytes that belong to no character");
    expect_column("a" E_ACUTE, 3, 3);
    expect_column("a" E_ACUTE, 4, 4);
    report("columns of CR and LF");
}

int main(void)
{
    test_rows();
    test_places();
    test_long_end();
    test_columns();
    return failed_tests() == 0 ? 0 : 1;
}
