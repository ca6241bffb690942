#include "cases.h"

#include "check.h"

/* Escapes end a literal, so that a letter after one is no hex digit. */
#define E_5 E_ACUTE E_ACUTE E_ACUTE E_ACUTE E_ACUTE
#define E_10 E_5 E_5
#define SUN "\xE6\x97\xA5"
#define SUN_15 SUN SUN SUN SUN SUN SUN SUN SUN SUN SUN SUN SUN SUN SUN SUN
#define GRIN "\xF0\x9F\x98\x80"

#define E_WORD "=C3=A9"
#define E_WORD_5 E_WORD E_WORD E_WORD E_WORD E_WORD
#define E_WORD_10 E_WORD_5 E_WORD_5
#define GRIN_WORD "=F0=9F=98=80"

/* Characters in base64, so many of each. */
#define E_3_BASE64 "w6nDqcOp"
#define GRIN_3_BASE64 "8J+YgPCfmIDwn5iA"
#define SUN_BASE64 "5pel"
#define SUN_15_BASE64 \
    SUN_BASE64 SUN_BASE64 SUN_BASE64 SUN_BASE64 SUN_BASE64 \
    SUN_BASE64 SUN_BASE64 SUN_BASE64 SUN_BASE64 SUN_BASE64 \
    SUN_BASE64 SUN_BASE64 SUN_BASE64 SUN_BASE64 SUN_BASE64

/* A word on a line of its own, and one on the name's line; the same in B. */
#define OPEN "\r\n =?UTF-8?Q?"
#define HERE " =?UTF-8?Q?"
#define OPEN_B "\r\n =?UTF-8?B?"
#define HERE_B " =?UTF-8?B?"
#define CLOSE "?="

#define E_MAIL "MAIL FROM:<" E_ACUTE "@example.org> ALT-ADDRESS=e+2Bx@example.org\r\n"
#define E_RCPT "RCPT TO:<" E_ACUTE "@example.net> ALT-ADDRESS=e@example.net\r\n"

#define A_10 "aaaaaaaaaa"
#define A_30 A_10 A_10 A_10
#define A_40 A_30 A_10
#define A_70 A_40 A_30

#define DOWNGRADED_MAIL_FROM \
    "Downgraded-Mail-From:" HERE_B \
    "PMOpQGV4YW1wbGUub3JnIDxlK3hAZXhhbXBsZS5v" CLOSE \
    OPEN "rg=3E=3E" CLOSE "\r\n"

#define DOWNGRADED_RCPT_TO \
    "Downgraded-Rcpt-To:" HERE_B \
    "PMOpQGV4YW1wbGUubmV0IDxlQGV4YW1wbGUubmV0Pj4=" CLOSE "\r\n"

/* A parameter's name is followed so, where its value is converted and fits a line,
 * or in parts; then characters, by RFC 2231. */
#define ALONE "*=UTF-8''"
#define FIRST "*0*=UTF-8''"
#define SECOND "*1*="
#define E_HEX "%C3%A9"
#define E_9 E_5 E_ACUTE E_ACUTE E_ACUTE E_ACUTE
#define E_HEX_9 E_HEX E_HEX E_HEX E_HEX E_HEX E_HEX E_HEX E_HEX E_HEX
#define SUN_6 SUN SUN SUN SUN SUN SUN
#define SUN_HEX "%E6%97%A5"
#define SUN_HEX_6 SUN_HEX SUN_HEX SUN_HEX SUN_HEX SUN_HEX SUN_HEX

#define TAKEN {HENNELAKU_OK, HENNELAKU_NO_INPUT, 0, 0, 0, 0}

/* A Content-Type field, of whose value this becomes. */
#define CONTENT(value, out) \
    PLAIN, "Content-Type:" value "\r\n", TAKEN, PLAIN, \
    "Content-Type:" out "\r\n"

/* A refusal that is about the envelope or the header. This input is cut in two
 * before the byte that the offset names. */
#define IN_ENVELOPE(number, place, before, rest, header) \
    before rest, header, \
    {number, HENNELAKU_ENVELOPE, place, sizeof(before) - 1, 0, 0}, NULL, NULL
#define IN_HEADER(number, place, envelope, before, rest) \
    envelope, before rest, \
    {number, HENNELAKU_HEADER, place, sizeof(before) - 1, 0, 0}, NULL, NULL

/* The same for the first RCPT line, and for a header. */
#define IN_RCPT(number, before, rest) \
    IN_ENVELOPE(number, 1, MAIL before, rest, "")
#define IN_LINES(number, place, before, rest) \
    IN_HEADER(number, place, PLAIN, before, rest)

const test_case cases[] = {
    /* The paper's whole case. */
    {"whole case", E_MAIL RCPT, "Subject: " E_ACUTE "\r\nX-Note: ok\r\n", TAKEN,
     "MAIL FROM:<e+x@example.org>\r\n" RCPT,
     DOWNGRADED_MAIL_FROM "Subject:" HERE E_WORD CLOSE "\r\nX-Note: ok\r\n"},

    /* Taken as they are. */
    {"all ASCII", PLAIN, "Subject: a\r\n b\r\n", TAKEN, PLAIN,
     "Subject: a\r\n b\r\n"},
    {"empty header", PLAIN, "", TAKEN, PLAIN, ""},
    {"empty path and Postmaster",
     "mail from:<> SIZE=10 BODY=8BITMIME\r\nrcpt to:<postMASTER>\r\n", "",
     TAKEN,
     "mail from:<> SIZE=10 BODY=8BITMIME\r\nrcpt to:<postMASTER>\r\n", ""},
    {"an encoded word in ASCII is copied", PLAIN,
     "Subject: =?UTF-8?Q?=C3=A9?= =?UTF-8?B?w6k=?=\r\n", TAKEN, PLAIN,
     "Subject: =?UTF-8?Q?=C3=A9?= =?UTF-8?B?w6k=?=\r\n"},
    {"an encoded word beside non-ASCII is encoded again", PLAIN,
     "Subject: =?UTF-8?B?w6k=?= " E_ACUTE "\r\n", TAKEN, PLAIN,
     "Subject:" HERE "=3D=3FUTF-8=3FB=3Fw6k=3D=3F=3D_" E_WORD CLOSE "\r\n"},

    /* Comments in parentheses. */
    {"a comment between a phrase and an address", PLAIN,
     "From: \xCE\xBB\xCE\xB9\xCE\xBC\xCE\xAC\xCE\xBD\xCE\xB9 "
     "(\xCF\x80\xCF\x81\xCE\xBF\xCE\xB2\xCE\xBB\xCE\xAE\xCF\x84\xCE\xB1 3) "
     "<pilot@example.net>\r\n", TAKEN, PLAIN,
     "From:" OPEN "=CE=BB=CE=B9=CE=BC=CE=AC=CE=BD=CE=B9" CLOSE "\r\n ("
     OPEN "=CF=80=CF=81=CE=BF=CE=B2=CE=BB=CE=AE=CF=84=CE=B1_3" CLOSE
     "\r\n )\r\n <pilot@example.net>\r\n"},
    {"comments in Date, escapes and folds", PLAIN,
     "Date: 15 Nov (a (" E_ACUTE "\\)\r\n b) \")\") 2026\r\n", TAKEN, PLAIN,
     "Date: 15 Nov (a (" OPEN E_WORD "=29_b" CLOSE "\r\n ) \")\") 2026\r\n"},
    {"non-ASCII outside the comments of Date",
     IN_LINES(6, 1, "X: a\r\nDate: (", E_ACUTE ") " E_ACUTE "\r\n")},
    {"non-ASCII after an unclosed parenthesis",
     IN_LINES(6, 0, "Date: (a (", E_ACUTE ")\r\n")},

    /* Parameters of Content-Type and Content-Disposition. */
    {"a parameter", CONTENT(" image/png; name=" E_ACUTE, " image/png;\r\n name" ALONE E_HEX)},
    {"a parameter, a string", PLAIN, "content-DISPOSITION:attachment;fileName=\"" SUN " 1.pdf\"\r\n", TAKEN, PLAIN,
     "content-DISPOSITION:attachment;\r\n fileName" ALONE SUN_HEX "%201.pdf\r\n"},
    {"a parameter: quoting, escapes and folds go",
     CONTENT(" a; n=\"" E_ACUTE " \\\"b\\\\c\\d\r\n\t(" E_ACUTE ")\"",
             " a;\r\n n" ALONE E_HEX "%20%22b%5Ccd%09%28" E_HEX "%29")},
    {"a parameter: a backslash before a fold", CONTENT(";n=\"" E_ACUTE "\\\r\n b\"", ";\r\n n" ALONE E_HEX "%20b")},
    {"a parameter: attribute characters are bare",
     CONTENT(";n=\"" E_ACUTE "!#$&+-.09AZ^_`az{|}~\"", ";\r\n n" ALONE E_HEX "!#$&+-.09AZ^_`az{|}~")},
    {"a parameter: all others are not",
     CONTENT(";n=\"" E_ACUTE "*'%()<>@,;:/[]?=\x7F\"",
             ";\r\n n" ALONE E_HEX "%2A%27%25%28%29%3C%3E%40%2C%3B%3A%2F%5B%5D%3F%3D%7F")},
    {"a parameter: a run of token bytes", CONTENT(";n=*'%" E_ACUTE ".a", ";\r\n n" ALONE "%2A%27%25" E_HEX ".a")},
    {"parameters in ASCII stay",
     CONTENT(" a; b=\"c\\d\" ; n=" E_ACUTE "; e=\"*'%\"", " a; b=\"c\\d\" ;\r\n n" ALONE E_HEX ";\r\n e=\"*'%\"")},
    {"a parameter: white space before it goes", CONTENT(" a ; \t\r\n  n=" E_ACUTE, " a ;\r\n n" ALONE E_HEX)},
    {"a parameter after a comment", CONTENT("a;\r\n (c) \r\n n=" E_ACUTE, "a;\r\n (c)\r\n n" ALONE E_HEX)},
    {"a parameter: white space about its ; goes",
     CONTENT("a; n=" E_ACUTE " \r\n\t;\r\n b=c ", "a;\r\n n" ALONE E_HEX ";\r\n b=c ")},
    {"a parameter: a comment before its ;", CONTENT("a;p=" E_ACUTE " (c) ; x", "a;\r\n p" ALONE E_HEX "\r\n (c) ; x")},
    {"a parameter: text after it", CONTENT("a;p=" E_ACUTE " junk", "a;\r\n p" ALONE E_HEX "\r\n junk")},
    {"a parameter: only blanks after it", CONTENT("a;n=" E_ACUTE " \r\n \t", "a;\r\n n" ALONE E_HEX)},
    {"a parameter: only its ; after it", CONTENT("a;n=" E_ACUTE " ;\t", "a;\r\n n" ALONE E_HEX ";")},
    {"two parameters", CONTENT("a; n=" E_ACUTE " ; m=\"" E_ACUTE "\"", "a;\r\n n" ALONE E_HEX ";\r\n m" ALONE E_HEX)},
    {"a parameter after an unclosed parenthesis", CONTENT("a (b; n=" E_ACUTE, "a (b;\r\n n" ALONE E_HEX)},
    {"a parameter: one without a value is none", CONTENT("a; n=; n=" E_ACUTE, "a; n=;\r\n n" ALONE E_HEX)},
    {"a comment beside parameters", CONTENT(" a (" E_ACUTE "); n=b", " a (" OPEN E_WORD CLOSE "\r\n ); n=b")},
    {"a comment before a parameter",
     CONTENT(" a (" E_ACUTE "); n=" E_ACUTE, " a (" OPEN E_WORD CLOSE "\r\n );\r\n n" ALONE E_HEX)},
    {"a comment after a parameter",
     CONTENT("a; n=" E_ACUTE " (" E_ACUTE ")", "a;\r\n n" ALONE E_HEX "\r\n (" OPEN E_WORD CLOSE "\r\n )")},
    {"a parameter of 57 characters after filename", CONTENT("a;filename=" E_9 "aaa", "a;\r\n filename" ALONE E_HEX_9 "aaa")},
    {"a parameter of 58: 55 and the rest",
     CONTENT("a;filename=" E_9 "aaaa", "a;\r\n filename" FIRST E_HEX_9 "a;\r\n filename" SECOND "aaa")},
    {"a parameter in parts: whole characters in each",
     CONTENT("a;filename=" SUN_6 SUN "; b", "a;\r\n filename" FIRST SUN_HEX_6 ";\r\n filename" SECOND SUN_HEX ";\r\n b")},
    {"parameters in ASCII are copied", CONTENT(" a;n*=b; n=\"c\" ;N=d", " a;n*=b; n=\"c\" ;N=d")},
    {"6: non-ASCII before the parameters", IN_LINES(6, 0, "Content-Type: ", E_ACUTE "; n=a\r\n")},
    {"6: a parameter's name with *", IN_LINES(6, 1, "X: a\r\nContent-Type: a;\r\n n*=", E_ACUTE "\r\n")},
    {"6: * in the name of another, in ASCII", IN_LINES(6, 0, "Content-Type: a; n*=b; m=", E_ACUTE "\r\n")},
    {"6: * in a name beside a comment", IN_LINES(6, 0, "Content-Type: a (", E_ACUTE "); n*0=b\r\n")},
    {"6: a name shared by two parameters, in any case", IN_LINES(6, 0, "Content-Type: a; name=", E_ACUTE "; NAME=b\r\n")},
    {"6: a name shared by two in ASCII", IN_LINES(6, 0, "Content-Disposition: a; n=b; n=c; m=", E_ACUTE "\r\n")},
    {"6: non-ASCII in a parameter's name", IN_LINES(6, 0, "Content-Type: a; n", E_ACUTE "=b\r\n")},
    {"6: a parameter's string that is not closed", IN_LINES(6, 0, "Content-Type: a; n=\"", E_ACUTE "\r\n")},
    {"6: a blank after =", IN_LINES(6, 0, "Content-Type: a; n= ", E_ACUTE "\r\n")},
    {"6: a blank before =", IN_LINES(6, 0, "Content-Type: a; n =", E_ACUTE "\r\n")},
    {"6: a comment after =", IN_LINES(6, 0, "Content-Type: a; n=(c)", E_ACUTE "\r\n")},
    {"6: no ; before a parameter", IN_LINES(6, 0, "Content-Type: a n=", E_ACUTE "\r\n")},
    {"6: text straight after a string", IN_LINES(6, 0, "Content-Type: a; n=\"", E_ACUTE "\"b\r\n")},
    {"6: / straight after a run", IN_LINES(6, 0, "Content-Type: a; n=", E_ACUTE "/b\r\n")},
    {"6: non-ASCII after a parameter", IN_LINES(6, 0, "Content-Type: a; n=", E_ACUTE " " E_ACUTE "\r\n")},

    /* Received fields. */
    {"Received of Postfix, its clause removed", PLAIN,
     "Received: from mx.example.net (mx.example.net [192.0.2.7])\r\n"
     "\tby relay.example.org (Postfix) with ESMTP id 4cXyZ1abcd\r\n"
     "\tfor <\xCE\xBB\xCE\xB9\xCE\xBC\xCE\xAD\xCE\xBD\xCE\xB1\xCF\x82"
     "@\xCE\xBB\xCE\xB9\xCE\xBC\xCE\xAC\xCE\xBD\xCE\xB9.example>; "
     "Sun, 15 Nov 2026 22:44:27 +0000 (UTC)\r\n", TAKEN, PLAIN,
     "Received: from mx.example.net (mx.example.net [192.0.2.7])\r\n"
     "\tby relay.example.org (Postfix) with ESMTP id 4cXyZ1abcd; "
     "Sun, 15 Nov 2026 22:44:27 +0000 (UTC)\r\n"},
    {"Received: clauses of both kinds and a comment", PLAIN,
     "Received: a FOR<" E_ACUTE "@x> (for " E_ACUTE ")\r\n for <c@d> "
     "for\r\n\t<\"" E_ACUTE " (\"@[(]> b\r\n", TAKEN, PLAIN,
     "Received: a (" OPEN "for_" E_WORD CLOSE "\r\n )\r\n for <c@d> b\r\n"},
    {"Received: nothing left after the colon", PLAIN,
     "reCEIved:for <" E_ACUTE "@x>\r\n", TAKEN, PLAIN, "reCEIved:\r\n"},
    {"Received: a clause after an unclosed parenthesis", PLAIN,
     "Received: (a for <" E_ACUTE "@x>\r\n", TAKEN, PLAIN,
     "Received: (a\r\n"},
    {"Received: ASCII, a for without an address", PLAIN,
     "Received: a for b\r\n", TAKEN, PLAIN, "Received: a for b\r\n"},
    {"Received: a for without an address, non-ASCII in a comment",
     IN_LINES(6, 1, "X: a\r\nReceived: for b\r\n (", E_ACUTE ")\r\n")},
    {"Received: an inner alternative",
     IN_LINES(6, 0, "Received: a for <", E_ACUTE "@x <a@b>>\r\n")},
    {"Received: a for at a word's end",
     IN_LINES(6, 0, "Received: a therefor <", E_ACUTE "@x>\r\n")},
    {"Received: a for in a string",
     IN_LINES(6, 0, "Received: \"a for <", E_ACUTE "@x>\"\r\n")},
    {"Received: non-ASCII besides a clause",
     IN_LINES(6, 0, "Received: a for <", E_ACUTE "@x> " E_ACUTE "\r\n")},

    /* Encoded words, by a phrase: in Q or in B. */
    {"ten and abc in one word of Q", PLAIN, "From:" E_10 "abc<a@x>\r\n", TAKEN,
     PLAIN, "From:" OPEN E_WORD_10 "abc" CLOSE "\r\n <a@x>\r\n"},
    {"eleven in one word of B", PLAIN, "From:" E_10 E_ACUTE "<a@x>\r\n", TAKEN,
     PLAIN, "From:" OPEN_B E_3_BASE64 E_3_BASE64 E_3_BASE64 "w6nDqQ==" CLOSE
     "\r\n <a@x>\r\n"},
    {"abcd and ten in one word of B", PLAIN, "From:abcd" E_10 "<a@x>\r\n", TAKEN,
     PLAIN, "From:" OPEN_B "YWJjZMOpw6nDqcOpw6nDqcOpw6nDqcOp" CLOSE
     "\r\n <a@x>\r\n"},
    {"six of four bytes in one word of B", PLAIN,
     "From:" GRIN GRIN GRIN GRIN GRIN GRIN "<a@x>\r\n", TAKEN, PLAIN,
     "From:" OPEN_B GRIN_3_BASE64 GRIN_3_BASE64 CLOSE "\r\n <a@x>\r\n"},
    {"23 of two bytes: 22 in B, then one in Q", PLAIN,
     "From:" E_10 E_10 E_ACUTE E_ACUTE E_ACUTE "<a@x>\r\n", TAKEN, PLAIN,
     "From:" OPEN_B E_3_BASE64 E_3_BASE64 E_3_BASE64 E_3_BASE64 E_3_BASE64
     E_3_BASE64 E_3_BASE64 "w6k=" CLOSE OPEN E_WORD CLOSE "\r\n <a@x>\r\n"},
    {"60 letters in Q, 30 of three bytes in B", PLAIN,
     "From:" A_30 A_30 SUN_15 SUN_15 "<a@x>\r\n", TAKEN, PLAIN,
     "From:" OPEN A_30 A_30 CLOSE OPEN_B SUN_15_BASE64 CLOSE
     OPEN_B SUN_15_BASE64 CLOSE "\r\n <a@x>\r\n"},
    {"as many in Q as in B: Q, also where more follow", PLAIN,
     "From:" A_30 "aa______" GRIN GRIN "<a@x>\r\n", TAKEN, PLAIN,
     "From:" OPEN A_30 "aa=5F=5F=5F=5F=5F=5F" GRIN_WORD CLOSE
     OPEN GRIN_WORD CLOSE "\r\n <a@x>\r\n"},

    /* The first word on the name's line, by fields in plain text and others. A
     * name of n bytes that is encapsulated leaves a room of 51 - n there. */
    {"Subject: eleven on its line, in B", PLAIN,
     "Subject:" E_10 E_ACUTE "\r\n", TAKEN, PLAIN,
     "Subject:" HERE_B E_3_BASE64 E_3_BASE64 E_3_BASE64 "w6nDqQ==" CLOSE
     "\r\n"},
    {"room for 6: one of two bytes in Q", PLAIN,
     A_40 "aaaaa: " E_ACUTE E_ACUTE "\r\n", TAKEN, PLAIN,
     "Downgraded-" A_40 "aaaaa:" HERE E_WORD CLOSE OPEN E_WORD CLOSE "\r\n"},
    {"room for 5: one of two bytes in B", PLAIN,
     A_40 "aaaaaa: " E_ACUTE E_ACUTE "\r\n", TAKEN, PLAIN,
     "Downgraded-" A_40 "aaaaaa:" HERE_B "w6k=" CLOSE OPEN E_WORD CLOSE "\r\n"},
    {"room for 4: one of three bytes in B", PLAIN,
     A_40 "aaaaaaa: " SUN "\r\n", TAKEN, PLAIN,
     "Downgraded-" A_40 "aaaaaaa:" HERE_B SUN_BASE64 CLOSE "\r\n"},
    {"room for 3: none of two bytes", PLAIN,
     A_40 "aaaaaaaa: " E_ACUTE "\r\n", TAKEN, PLAIN,
     "Downgraded-" A_40 "aaaaaaaa:" OPEN E_WORD CLOSE "\r\n"},
    {"room for 12: one of four bytes in Q", PLAIN,
     A_30 "aaaaaaaaa: " GRIN "\r\n", TAKEN, PLAIN,
     "Downgraded-" A_30 "aaaaaaaaa:" HERE GRIN_WORD CLOSE "\r\n"},
    {"room for 11: one of four bytes in B", PLAIN,
     A_40 ": " GRIN "\r\n", TAKEN, PLAIN,
     "Downgraded-" A_40 ":" HERE_B "8J+YgA==" CLOSE "\r\n"},
    {"room for 8: one of four bytes in B", PLAIN,
     A_40 "aaa: " GRIN "\r\n", TAKEN, PLAIN,
     "Downgraded-" A_40 "aaa:" HERE_B "8J+YgA==" CLOSE "\r\n"},
    {"room for 7: none of four bytes", PLAIN,
     A_40 "aaaa: " GRIN "\r\n", TAKEN, PLAIN,
     "Downgraded-" A_40 "aaaa:" OPEN GRIN_WORD CLOSE "\r\n"},
    {"fold taken out, space as _", PLAIN,
     "cOMMENTS: \t" E_ACUTE " a\r\n\tb.=?\r\n", TAKEN, PLAIN,
     "cOMMENTS:" HERE E_WORD "_a=09b=2E=3D=3F" CLOSE "\r\n"},
    {"other names are encapsulated", PLAIN, "X-Berth: " E_ACUTE "\r\n", TAKEN,
     PLAIN, "Downgraded-X-Berth:" HERE E_WORD CLOSE "\r\n"},

    /* Address fields. */
    {"removed address", PLAIN, "To: " E_ACUTE "@example.org\r\n", TAKEN, PLAIN,
     "To:\r\n Internationalized Address" OPEN "=C3=A9=40example=2Eorg" CLOSE
     "\r\n Removed:;\r\n"
     "Downgraded-To:" HERE "=C3=A9=40example=2Eorg" CLOSE "\r\n"},
    {"replaced address", PLAIN,
     "Cc: \"J. " E_ACUTE "\" <" E_ACUTE "@x <e@x>>, c d <c@x>\r\n", TAKEN,
     PLAIN,
     "Cc:" OPEN "J=2E_" E_WORD CLOSE "\r\n <e@x>,\r\n c\r\n d\r\n <c@x>\r\n"
     "Downgraded-Cc:" HERE_B "IkouIMOpIiA8w6lAeCA8ZUB4Pj4sIGMgZCA8Y0B4Pg==" CLOSE
     "\r\n"},
    {"phrase alone needs no copy", PLAIN, "From: " E_ACUTE " <a@x>\r\n", TAKEN,
     PLAIN, "From:" OPEN E_WORD CLOSE "\r\n <a@x>\r\n"},
    {"group", PLAIN, "To: " E_ACUTE ": a@x, <b@x>;, c:;\r\n", TAKEN, PLAIN,
     "To:" OPEN E_WORD CLOSE "\r\n :\r\n a@x,\r\n <b@x>\r\n ;,\r\n c\r\n :"
     "\r\n ;\r\n"},
    {"a group that loses a member goes whole", PLAIN,
     "To: h: a@x, " E_ACUTE "@x ;, b@x\r\n", TAKEN, PLAIN,
     "To:\r\n h\r\n Internationalized Address" OPEN "a=40x=2C_" E_WORD "=40x"
     CLOSE "\r\n Removed:;,\r\n b@x\r\n"
     "Downgraded-To:" HERE "h=3A_a=40x=2C_" E_WORD "=40x_=3B=2C_b=40x" CLOSE
     "\r\n"},
    {"a group whose members have alternatives stays", PLAIN,
     "To: h: <" E_ACUTE "@x <e@x>>;\r\n", TAKEN, PLAIN,
     "To:\r\n h\r\n :\r\n <e@x>\r\n ;\r\n"
     "Downgraded-To:" HERE "h=3A_=3C" E_WORD "=40x_=3Ce=40x=3E=3E=3B" CLOSE
     "\r\n"},
    {"comments about a group that loses a member", PLAIN,
     "To: h (c): (d) " E_ACUTE "@x; (e)\r\n", TAKEN, PLAIN,
     "To:\r\n h\r\n (\r\n c\r\n )\r\n Internationalized Address" OPEN
     "=28d=29_" E_WORD "=40x" CLOSE "\r\n Removed:;\r\n (\r\n e\r\n )\r\n"
     "Downgraded-To:" HERE "h_=28c=29=3A_=28d=29_" E_WORD "=40x=3B_=28e=29" CLOSE
     "\r\n"},
    {"text that does not fit is encapsulated", PLAIN,
     "To: " E_ACUTE "\r\n", TAKEN, PLAIN,
     "Downgraded-To:" HERE E_WORD CLOSE "\r\n"},
    {"no space before the alternative does not fit", PLAIN,
     "To: <" E_ACUTE "@x<e@x>>\r\n", TAKEN, PLAIN,
     "Downgraded-To:" HERE "=3C" E_WORD "=40x=3Ce=40x=3E=3E" CLOSE "\r\n"},
    {"an alternative of an ASCII address does not fit", PLAIN,
     "To: " E_ACUTE " <a@x <e@x>>\r\n", TAKEN, PLAIN,
     "Downgraded-To:" HERE E_WORD "_=3Ca=40x_=3Ce=40x=3E=3E" CLOSE "\r\n"},
    {"an alternative that is not ASCII does not fit", PLAIN,
     "To: <" E_ACUTE "@x <" E_ACUTE "@x>>\r\n", TAKEN, PLAIN,
     "Downgraded-To:" HERE "=3C" E_WORD "=40x_=3C" E_WORD "=40x=3E=3E" CLOSE
     "\r\n"},
    {"an empty place in a list does not fit", PLAIN,
     "To: a@x,," E_ACUTE "@x\r\n", TAKEN, PLAIN,
     "Downgraded-To:" HERE "a=40x=2C=2C" E_WORD "=40x" CLOSE "\r\n"},

    /* New first fields. */
    {"one recipient replaced", MAIL E_RCPT, "", TAKEN,
     MAIL "RCPT TO:<e@example.net>\r\n",
     DOWNGRADED_RCPT_TO},
    {"both paths replaced", E_MAIL E_RCPT, "", TAKEN,
     "MAIL FROM:<e+x@example.org>\r\nRCPT TO:<e@example.net>\r\n",
     DOWNGRADED_MAIL_FROM DOWNGRADED_RCPT_TO},
    {"two recipients: no Downgraded-Rcpt-To", MAIL E_RCPT E_RCPT, "", TAKEN,
     MAIL "RCPT TO:<e@example.net>\r\nRCPT TO:<e@example.net>\r\n", ""},
    {"parameters around ALT-ADDRESS stay",
     MAIL "RCPT TO:<" E_ACUTE "@x> NOTIFY=NEVER alt-address=e@x ORCPT=rfc822;e\r\n"
     RCPT, "", TAKEN,
     MAIL "RCPT TO:<e@x> NOTIFY=NEVER ORCPT=rfc822;e\r\n" RCPT, ""},

    /* 2: which line */
    {"2: empty envelope", IN_ENVELOPE(2, 0, "", "", "")},
    {"2: MAIL with no RCPT", IN_ENVELOPE(2, 1, MAIL, "", "")},
    {"2: RCPT first", IN_ENVELOPE(2, 0, "", RCPT RCPT, "")},
    {"2: second MAIL", IN_ENVELOPE(2, 2, MAIL RCPT, MAIL, "")},
    {"2: an empty line", IN_ENVELOPE(2, 1, MAIL, "\r\n" RCPT, "")},
    {"2: another verb", IN_ENVELOPE(2, 2, MAIL RCPT, "DATA\r\n", "")},
    {"2: a beginning of RCPT", IN_RCPT(2, "rcp", "\r\n")},
    {"2: two spaces in RCPT TO", IN_RCPT(2, "RCPT ", " TO:<b@x>\r\n")},
    {"2: space after the colon", IN_RCPT(2, "RCPT TO:", " <b@x>\r\n")},

    /* 2: the line's end */
    {"2: no CRLF at the end", IN_RCPT(2, "RCPT TO:<b@example.net>", "")},
    {"2: a line that may not end", IN_RCPT(2, "RCPT TO:<b@", "")},
    {"2: CR and no LF at the end", IN_RCPT(2, "RCPT TO:<b@x>\r", "")},
    {"2: LF alone", IN_RCPT(2, "RCPT TO:<b@x>", "\n")},
    {"2: LF alone, and a line", IN_RCPT(2, "RCPT TO:<b@x>", "\n" RCPT)},
    {"2: CR alone", IN_RCPT(2, "RCPT TO:<b@x>\r", "A=b\r\n")},
    {"2: two CR", IN_RCPT(2, "RCPT TO:<b@x>\r", "\r\n")},
    {"2: CR where the line may not end", IN_RCPT(2, "RCPT TO:<b@x", "\r\n")},
    {"2: CR after a space", IN_RCPT(2, "RCPT TO:<b@x> ", "\r\n")},

    /* 2: the path */
    {"2: source route", IN_RCPT(2, "RCPT TO:<", "@h:b@x>\r\n")},
    {"2: no <", IN_RCPT(2, "RCPT TO:", "b@x\r\n")},
    {"2: Postmaster for MAIL",
     IN_ENVELOPE(2, 0, "MAIL FROM:<Postmaster", ">\r\n" RCPT, "")},
    {"2: a beginning of Postmaster", IN_RCPT(2, "RCPT TO:<postmaste", ">\r\n")},
    {"2: Postmaster and more", IN_RCPT(2, "RCPT TO:<Postmasters", ">\r\n")},
    {"2: empty path for RCPT", IN_RCPT(2, "RCPT TO:<", ">\r\n")},
    {"2: no domain", IN_RCPT(2, "RCPT TO:<b@", ">\r\n")},
    {"2: dot at the start", IN_RCPT(2, "RCPT TO:<", ".b@x>\r\n")},
    {"2: two dots", IN_RCPT(2, "RCPT TO:<b.", ".c@x>\r\n")},
    {"2: dot before @", IN_RCPT(2, "RCPT TO:<b.", "@x>\r\n")},
    {"2: dot at the end", IN_RCPT(2, "RCPT TO:<b@x.", ">\r\n")},
    {"2: two @", IN_RCPT(2, "RCPT TO:<b@x", "@y>\r\n")},
    {"2: space in a path", IN_RCPT(2, "RCPT TO:<b", " c@x>\r\n")},
    {"2: TAB in a quoted string", IN_RCPT(2, "RCPT TO:<\"b", "\t\"@x>\r\n")},
    {"2: non-ASCII after a backslash",
     IN_RCPT(2, "RCPT TO:<\"b\\", E_ACUTE "\"@x>\r\n")},
    {"2: quoted string that does not end",
     IN_RCPT(2, "RCPT TO:<\"b@x>", "\r\n")},
    {"2: quoted string and more", IN_RCPT(2, "RCPT TO:<\"b\"", "c@x>\r\n")},
    {"2: backslash in a domain literal",
     IN_RCPT(2, "RCPT TO:<b@[x", "\\]>\r\n")},
    {"2: non-ASCII in a domain literal",
     IN_RCPT(2, "RCPT TO:<b@[x", E_ACUTE "]>\r\n")},
    {"2: domain literal and more", IN_RCPT(2, "RCPT TO:<b@[x]", "y>\r\n")},

    /* 2: UTF-8 */
    {"2: bad UTF-8", IN_RCPT(2, "RCPT TO:<\xC3", "@x>\r\n")},
    {"2: overlong form", IN_RCPT(2, "RCPT TO:<", "\xC0\xAF@x>\r\n")},
    {"2: surrogate", IN_RCPT(2, "RCPT TO:<b@\xED", "\xA0\x80>\r\n")},
    {"2: above 10FFFF",
     IN_RCPT(2, "RCPT TO:<\"\xF4", "\x90\x80\x80\"@x>\r\n")},
    {"2: no lead byte", IN_RCPT(2, "RCPT TO:<b", "\x80@x>\r\n")},
    {"2: bad UTF-8 of an ORCPT",
     IN_RCPT(2, "RCPT TO:<b@x> ORCPT=" E_ACUTE "\xE2\x82", " A=b\r\n")},

    /* 2: parameters */
    {"2: no space before a parameter", IN_RCPT(2, "RCPT TO:<b@x>", "A=b\r\n")},
    {"2: two spaces", IN_RCPT(2, "RCPT TO:<b@x> ", " A=b\r\n")},
    {"2: hyphen first", IN_RCPT(2, "RCPT TO:<b@x> ", "-A=b\r\n")},
    {"2: no keyword", IN_RCPT(2, "RCPT TO:<b@x> ", "=b\r\n")},
    {"2: a keyword's byte", IN_RCPT(2, "RCPT TO:<b@x> A", "_B=b\r\n")},
    {"2: no value", IN_RCPT(2, "RCPT TO:<b@x> A=", " B=b\r\n")},
    {"2: no value at the end", IN_RCPT(2, "RCPT TO:<b@x> A=", "\r\n")},
    {"2: = in a value", IN_RCPT(2, "RCPT TO:<b@x> A=b", "=c\r\n")},
    {"2: DEL in a value", IN_RCPT(2, "RCPT TO:<b@x> A=b", "\x7F" "c\r\n")},
    {"2: non-ASCII in a value",
     IN_RCPT(2, "RCPT TO:<b@x> A=b", E_ACUTE "\r\n")},
    {"2: non-ASCII in the value of ORCPTS",
     IN_RCPT(2, "RCPT TO:<b@x> ORCPTS=", E_ACUTE "\r\n")},
    {"2: non-ASCII in the value of ALT-ADDRESS",
     IN_RCPT(2, "RCPT TO:<" E_ACUTE "@x> ALT-ADDRESS=", E_ACUTE "@x\r\n")},
    {"2: second ALT-ADDRESS",
     IN_RCPT(2, "RCPT TO:<" E_ACUTE "@x> ALT-ADDRESS=e@x ALT-ADDRESS",
             "=e@x\r\n")},
    {"2: second ALT-ADDRESS without a value",
     IN_RCPT(2, "RCPT TO:<" E_ACUTE "@x> ALT-ADDRESS=e@x A alt-address",
             "\r\n")},
    {"2: second ALT-ADDRESS, a space after it",
     IN_RCPT(2, "RCPT TO:<b@x> ALT-ADDRESS=e@x Alt-Address", " A\r\n")},
    {"2: second ALT-ADDRESS at the end of the data",
     IN_RCPT(2, "RCPT TO:<b@x> ALT-ADDRESS=e@x ALT-ADDRESS", "")},
    {"2: ALT-ADDRESS without a value",
     IN_RCPT(2, "RCPT TO:<" E_ACUTE "@x> ALT-ADDRESS", "\r\n")},
    {"2: ALT-ADDRESS without a value, a space after it",
     IN_RCPT(2, "RCPT TO:<" E_ACUTE "@x> ALT-ADDRESS", " A=b\r\n")},
    {"2: ALT-ADDRESS with an empty value",
     IN_RCPT(2, "RCPT TO:<" E_ACUTE "@x> ALT-ADDRESS=", "\r\n")},
    {"ALT-ADDRESSX beside ALT-ADDRESS",
     MAIL "RCPT TO:<" E_ACUTE "@x> ALT-ADDRESSX ALT-ADDRESS=e@x "
     "ALT-ADDRESS-=a\r\n" RCPT, "", TAKEN,
     MAIL "RCPT TO:<e@x> ALT-ADDRESSX ALT-ADDRESS-=a\r\n" RCPT, ""},

    /* 3 and 4 */
    {"3: MAIL",
     IN_ENVELOPE(3, 0, "MAIL FROM:<", E_ACUTE "@x>\r\n" RCPT, "")},
    {"3: second RCPT",
     IN_ENVELOPE(3, 2, MAIL RCPT "RCPT TO:<", "a@" E_ACUTE "> SIZE=1\r\n", "")},
    {"3: quoted string", IN_RCPT(3, "rcpt to:<", "\"<" E_ACUTE "\"@x>\r\n")},
    {"4: beside an ASCII path",
     IN_RCPT(4, "RCPT TO:<b@x> ALT-ADDRESS=", "b@x\r\n")},
    {"4: beside an empty path",
     IN_ENVELOPE(4, 0, "MAIL FROM:<> ALT-ADDRESS=", "b@x\r\n" RCPT, "")},
    {"4: CRLF decoded",
     IN_RCPT(4, "RCPT TO:<" E_ACUTE "@x> ALT-ADDRESS=", "a+0D+0Ab@x\r\n")},
    {"4: lowercase hex",
     IN_RCPT(4, "RCPT TO:<" E_ACUTE "@x> ALT-ADDRESS=", "a+2bb@x\r\n")},
    {"4: not an address",
     IN_RCPT(4, "RCPT TO:<" E_ACUTE "@x> ALT-ADDRESS=", "b\r\n")},
    {"4: non-ASCII decoded",
     IN_RCPT(4, "RCPT TO:<" E_ACUTE "@x> ALT-ADDRESS=", "+C3+A9@x\r\n")},
    {"4: after other parameters",
     IN_RCPT(4, "RCPT TO:<" E_ACUTE "@x> A=ALT-ADDRESS ALT-ADDRESSX=b@x "
             "alt-address=", "b B=c\r\n")},

    /* 5: which line */
    {"5: continuation first", IN_LINES(5, 0, "", " a\r\n")},
    {"5: continuation first, by TAB", IN_LINES(5, 0, "", "\ta\r\n")},
    {"5: empty line", IN_LINES(5, 1, "A: b\r\n", "\r\n")},
    {"5: only an empty line", IN_LINES(5, 0, "", "\r\n")},

    /* 5: the line's end */
    {"5: no CRLF at the end", IN_LINES(5, 2, "A: b\r\n c\r\nD: e", "")},
    {"5: a name and no CRLF at the end", IN_LINES(5, 1, "A: b\r\nD", "")},
    {"5: CR and no LF at the end", IN_LINES(5, 0, "X: a\r", "")},
    {"5: LF alone", IN_LINES(5, 0, "A: b", "\nC: d\r\n")},
    {"5: CR alone", IN_LINES(5, 1, "A: b\r\nC: d\r", " e\r\n")},
    {"5: CR and a letter", IN_LINES(5, 0, "x: a\r", "b\r\n")},
    {"5: two CR", IN_LINES(5, 0, "x: a\r", "\r\n")},
    {"5: continuation of a space", PLAIN, "A: b\r\n \r\n", TAKEN, PLAIN,
     "A: b\r\n \r\n"},

    /* 5: the name */
    {"5: no colon", IN_LINES(5, 1, "A: b\r\nabc", "\r\n")},
    {"5: no colon before a space", IN_LINES(5, 1, "A: b\r\nC", " d\r\n")},
    {"5: space in a name", IN_LINES(5, 0, "A", " : b\r\n")},
    {"5: DEL in a name", IN_LINES(5, 0, "A", "\x7F: b\r\n")},
    {"5: LF in a name", IN_LINES(5, 0, "A", "\n: b\r\n")},
    {"5: empty name", IN_LINES(5, 1, "A: b\r\n", ": c\r\n")},
    {"5: non-ASCII in a name", IN_LINES(5, 0, "", E_ACUTE ": a\r\n")},
    {"name of 76 bytes", PLAIN, A_70 "aaaaaa:\r\n", TAKEN, PLAIN,
     A_70 "aaaaaa:\r\n"},
    {"5: name of 77 bytes", IN_LINES(5, 0, A_70 "aaaaaa", "a:\r\n")},

    /* 5: UTF-8 */
    {"5: surrogate", IN_LINES(5, 0, "A: \xED", "\xA0\x80\r\n")},
    {"5: overlong of two bytes", IN_LINES(5, 0, "A: ", "\xC0\xAF\r\n")},
    {"5: overlong of three bytes", IN_LINES(5, 0, "A: \xE0", "\x9F\xBF\r\n")},
    {"5: overlong of four bytes",
     IN_LINES(5, 0, "A: \xF0", "\x8F\xBF\xBF\r\n")},
    {"5: above 10FFFF", IN_LINES(5, 0, "A: \xF4", "\x90\x80\x80\r\n")},
    {"5: no lead byte", IN_LINES(5, 1, "A: b\r\n " E_ACUTE, "\x80\r\n")},
    {"5: F5", IN_LINES(5, 0, "A:" E_ACUTE, "\xF5\x80\x80\x80\r\n")},
    {"5: character cut short", IN_LINES(5, 0, "A: \xC3", "(\r\n")},
    {"5: character cut by the line's end",
     IN_LINES(5, 0, "A: \xE2\x82", "\r\n")},
    {"5: character cut by the end of the data",
     IN_LINES(5, 0, "A: \xE2\x82", "")},

    /* 6 */
    {"6: ORCPT",
     IN_ENVELOPE(6, 2, MAIL RCPT "RCPT TO:<b@x> orcpt=utf-8;", E_ACUTE "\r\n",
                 "")},
    {"6: ORCPT of MAIL",
     IN_ENVELOPE(6, 0, "MAIL FROM:<a@x> ORCPT=", E_ACUTE "\r\n" RCPT, "")},
    {"6: first ORCPT value that is not ASCII",
     IN_RCPT(6, "RCPT TO:<" E_ACUTE "@x> ORCPT=a ALT-ADDRESS=e@x Orcpt=b",
             E_ACUTE "c" E_ACUTE " ORCPT=" E_ACUTE "\r\n")},
    {"6: held name in any case",
     IN_LINES(6, 2, "A: b\r\n c\r\nreCEIved: ", E_ACUTE "\r\n")},
    {"6: in a later line of the field",
     IN_LINES(6, 1, "A: b\r\nKeywords: a,\r\n b, ",
              E_ACUTE E_ACUTE "\r\n")},
    {"6: first of two in a field",
     IN_LINES(6, 1, "X: " E_ACUTE "\r\nDate: (",
              E_ACUTE ")\r\n " E_ACUTE "\r\n")},

    /* Which is told first. */
    {"order: 4 on line 0 before 2 on line 1",
     IN_ENVELOPE(4, 0, "MAIL FROM:<a@x> ALT-ADDRESS=", "a@x\r\nRCPT\r\n", "")},
    {"order: 3 on line 1 before 2 on line 2",
     IN_RCPT(3, "RCPT TO:<", E_ACUTE "@x>\r\nRCPT\r\n")},
    {"order: 2 before 3 on one line",
     IN_RCPT(2, "RCPT TO:<" E_ACUTE "@x> ", "=\r\n")},
    {"order: 2 before 4 on one line",
     IN_RCPT(2, "RCPT TO:<a@x> ALT-ADDRESS=a@x ", "-a\r\n")},
    {"order: 2 after an ORCPT that is not ASCII",
     IN_RCPT(2, "RCPT TO:<a@x> ORCPT=" E_ACUTE, "\n\r\n")},
    {"order: 3 before 5",
     IN_ENVELOPE(3, 1, MAIL "RCPT TO:<", E_ACUTE "@x>\r\n", "a\r\n")},
    {"order: 4 before 5",
     IN_ENVELOPE(4, 1, MAIL "RCPT TO:<a@x> ALT-ADDRESS=", "a@x\r\n", "a\r\n")},
    {"order: 5 before 6 of an ORCPT",
     IN_HEADER(5, 1, MAIL "RCPT TO:<b@x> ORCPT=" E_ACUTE "\r\n",
               "A: b\r\nc", "\r\n")},
    {"order: 5 on line 1 before 6 on line 0",
     IN_LINES(5, 1, "Date: " E_ACUTE "\r\nc", "\r\n")},
    {"order: 6 of an ORCPT before 6 of a field",
     IN_ENVELOPE(6, 1, MAIL "RCPT TO:<b@x> ORCPT=", E_ACUTE "\r\n",
                 "Date: " E_ACUTE "\r\n")},
    {"order: first 6 of two fields",
     IN_LINES(6, 1, "X: " E_ACUTE "\r\nDate: ",
              E_ACUTE "\r\nKeywords: " E_ACUTE "\r\n")},
    {"order: 2 before 3, 4, 5 and 6",
     IN_ENVELOPE(2, 0, "MAIL",
                 "\r\nRCPT TO:<" E_ACUTE "@x>\r\n"
                 "RCPT TO:<a@x> ALT-ADDRESS=a@x\r\n",
                 "a\r\nDate: " E_ACUTE "\r\n")},
};

const size_t case_count = sizeof cases / sizeof cases[0];

/* An ALT-ADDRESS on the MAIL line, cut before its value. */
#define E_ALT "MAIL FROM:<" E_ACUTE "@example.org> ALT-ADDRESS="

const test_case current_cases[] = {
    /* 10, whatever path and value. */
    {"10: the whole case",
     IN_ENVELOPE(10, 0, E_ALT, "e+2Bx@example.org\r\n" RCPT,
                 "Subject: " E_ACUTE "\r\nX-Note: ok\r\n")},
    {"10: beside an ASCII path",
     IN_RCPT(10, "RCPT TO:<a@x> ALT-ADDRESS=", "b@x\r\n")},
    {"10: beside an empty path",
     IN_ENVELOPE(10, 0, "MAIL FROM:<> ALT-ADDRESS=", "b@x\r\n" RCPT, "")},
    {"10: beside Postmaster",
     IN_RCPT(10, "RCPT TO:<postMASTER> ALT-ADDRESS=", "b@x\r\n")},
    {"10: a value that is not xtext",
     IN_RCPT(10, "RCPT TO:<" E_ACUTE "@x> ALT-ADDRESS=", "e+2bx@x\r\n")},
    {"10: a value that is no address",
     IN_RCPT(10, "RCPT TO:<" E_ACUTE "@x> ALT-ADDRESS=", "+\r\n")},
    {"10: a keyword in any case, after others",
     IN_RCPT(10, "rcpt to:<" E_ACUTE "@x> A ORCPT=b aLT-aDDRESS=",
             "e@x NOTIFY=NEVER\r\n")},

    /* 2 and 3 as in the spool. */
    {"current: no value is 2", IN_RCPT(2, "RCPT TO:<a@x> ALT-ADDRESS", "\r\n")},
    {"current: an empty value is 2",
     IN_RCPT(2, "RCPT TO:<a@x> ALT-ADDRESS=", "\r\n")},
    {"current: a second one is 2",
     IN_RCPT(2, "RCPT TO:<" E_ACUTE "@x> ALT-ADDRESS=e@x ALT-ADDRESS",
             "=e@x\r\n")},
    {"current: = in the value is 2",
     IN_RCPT(2, "RCPT TO:<" E_ACUTE "@x> ALT-ADDRESS=e", "=x\r\n")},
    {"current: non-ASCII in the value is 2",
     IN_RCPT(2, "RCPT TO:<" E_ACUTE "@x> ALT-ADDRESS=", E_ACUTE "@x\r\n")},
    {"current: a path that is not ASCII is 3",
     IN_RCPT(3, "RCPT TO:<", E_ACUTE "@x>\r\n")},

    /* Which is told first. */
    {"order: 10 on line 0 before 2 on line 1",
     IN_ENVELOPE(10, 0, E_ALT, "a@x\r\nRCPT\r\n", "")},
    {"order: 10 on line 0 before 3 on line 1",
     IN_ENVELOPE(10, 0, E_ALT, "a@x\r\nRCPT TO:<" E_ACUTE "@x>\r\n", "")},
    {"order: 10 on line 0 before a missing line",
     IN_ENVELOPE(10, 0, E_ALT, "a@x\r\n", "")},
    {"order: 3 on line 0 before 10 on line 1",
     IN_ENVELOPE(3, 0, "MAIL FROM:<",
                 E_ACUTE "@x>\r\nRCPT TO:<a@x> ALT-ADDRESS=b@x\r\n", "")},
    {"order: 2 on line 0 before 10 on line 1",
     IN_ENVELOPE(2, 0, "MAIL",
                 "\r\nRCPT TO:<a@x> ALT-ADDRESS=b@x\r\n", "")},
    {"order: 2 before 10 on one line",
     IN_RCPT(2, "RCPT TO:<a@x> ALT-ADDRESS=a@x ", "-a\r\n")},
    {"order: 10 before 5",
     IN_ENVELOPE(10, 1, MAIL "RCPT TO:<a@x> ALT-ADDRESS=", "a@x\r\n",
                 "a\r\n")},
    {"order: 10 before 6 of an ORCPT on a line before",
     IN_ENVELOPE(10, 1, "MAIL FROM:<a@x> ORCPT=" E_ACUTE "\r\n"
                 "RCPT TO:<a@x> ALT-ADDRESS=", "a@x\r\n",
                 "Keywords: " E_ACUTE "\r\n")},

    /* Inner alternatives. */
    {"an inner alternative does not fit", PLAIN,
     "To: <" E_ACUTE "@x <e@x>>\r\n", TAKEN, PLAIN,
     "Downgraded-To:" HERE "=3C" E_WORD "=40x_=3Ce=40x=3E=3E" CLOSE "\r\n"},
    {"beside other addresses neither", PLAIN,
     "Cc: a@x, " E_ACUTE " <" E_ACUTE "@x <e@x>>\r\n", TAKEN, PLAIN,
     "Downgraded-Cc:" HERE "a=40x=2C_" E_WORD "_=3C" E_WORD
     "=40x_=3Ce=40x=3E=3E" CLOSE "\r\n"},
    {"in a group neither", PLAIN,
     "To: h: <" E_ACUTE "@x <e@x>>;\r\n", TAKEN, PLAIN,
     "Downgraded-To:" HERE "h=3A_=3C" E_WORD "=40x_=3Ce=40x=3E=3E=3B" CLOSE
     "\r\n"},
    {"in ASCII it is copied", PLAIN, "To: <a@x <e@x>>\r\n", TAKEN, PLAIN,
     "To: <a@x <e@x>>\r\n"},

    /* As in the spool. */
    {"current: a removed address", PLAIN,
     "To: " E_ACUTE "@example.org\r\n", TAKEN, PLAIN,
     "To:\r\n Internationalized Address" OPEN "=C3=A9=40example=2Eorg" CLOSE
     "\r\n Removed:;\r\n"
     "Downgraded-To:" HERE "=C3=A9=40example=2Eorg" CLOSE "\r\n"},
    {"current: parameters that begin so", MAIL
     "RCPT TO:<a@x> ALT-ADDRESSES=b ALT=c ADDRESS=d ORCPT=ALT-ADDRESS\r\n",
     "Subject: " E_ACUTE "\r\n", TAKEN, MAIL
     "RCPT TO:<a@x> ALT-ADDRESSES=b ALT=c ADDRESS=d ORCPT=ALT-ADDRESS\r\n",
     "Subject:" HERE E_WORD CLOSE "\r\n"},
};

const size_t current_case_count =
    sizeof current_cases / sizeof current_cases[0];
