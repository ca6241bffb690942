//! Request [6]: the reader of Downgraded fields; a test of a settled reading tells its number.

use crate::address_list;
use crate::call::{Profile, Setting};
use crate::checks::added_texts;
use crate::reader::{read, ReadAnswer, CHARSET, FIELD, NONE, ROOM, TEXT, UTF8, WORD};
use crate::tests::call_set as call;
use crate::{downgrade_mailbox, generate};

/// Room for the header is always enough, [6.12].
fn answer(header: &[u8], place: usize) -> (ReadAnswer, Vec<u8>) {
    let mut buffer = vec![0xEE; header.len()];
    let answer = read(header, place, &mut buffer);
    let written = if answer.number == TEXT { answer.length } else { 0 };
    assert!(buffer[written..].iter().all(|&b| b == 0xEE));
    buffer.truncate(written);
    (answer, buffer)
}

/// Number and text of each field, in order.
fn all(header: &[u8]) -> Vec<(u32, Vec<u8>)> {
    let (mut fields, mut place) = (Vec::new(), 0);
    loop {
        let (answer, text) = answer(header, place);
        if answer.number == NONE {
            assert_eq!((answer.start, answer.next, answer.length), (header.len(), header.len(), 0));
            return fields;
        }
        assert!(answer.start >= place && answer.next > answer.start && answer.next <= header.len());
        fields.push((answer.number, text));
        place = answer.next;
    }
}

/// The text of a field with this value, or the refusal.
fn value(value: &[u8]) -> Result<String, u32> {
    let header = [b"Downgraded-X:", value, b"\r\n"].concat();
    let mut fields = all(&header);
    assert_eq!(fields.len(), 1);
    let (number, text) = fields.remove(0);
    match number {
        TEXT => Ok(String::from_utf8(text).unwrap()),
        number => Err(number),
    }
}

fn shows(text: &str, want: &str) {
    assert_eq!(value(text.as_bytes()), Ok(want.to_string()), "{text:?}");
}

fn refused(text: &str, number: u32) {
    assert_eq!(value(text.as_bytes()), Err(number), "{text:?}");
}

#[test]
fn fields_and_places() {
    let header = b"X: y\r\nDowngraded-A: a\r\n b\r\nY: z\r\ndownGRADED-b:c\r\n\tD\r\n\r\n e\r\nDowngraded-\r\nZ";
    let starts = [6, 33, 59];
    let nexts = [27, 53, 72];
    let numbers = [0, 0, 1];
    for place in 0..header.len() + 3 {
        let (got, _) = answer(header, place);
        let want = starts.iter().position(|&start| start >= place);
        match want {
            Some(at) => assert_eq!((got.number, got.start, got.next), (numbers[at], starts[at], nexts[at]), "{place}"),
            None => assert_eq!((got.number, got.start, got.next), (NONE, header.len(), header.len()), "{place}"),
        }
    }
    assert_eq!(answer(header, usize::MAX).0.number, NONE);
    assert_eq!(answer(b"", 0).0, ReadAnswer { number: NONE, start: 0, next: 0, length: 0 });
    // [6.4]: an empty line ends a field, and does not end the header.
    assert_eq!(all(header), [(0, b"a b".to_vec()), (0, b"c\tD".to_vec()), (1, vec![])]);
    // [6.1]: only CRLF ends a line.
    assert_eq!(all(b"X: y\nDowngraded-A: a\r\n"), []);
    assert_eq!(all(b"X: y\rDowngraded-A: a\r\n"), []);
    assert_eq!(all(b"Downgraded-A: a\nDowngraded-B: b\r\n"), [(1, vec![])]);
    assert_eq!(all(b"Downgraded-A: a\r\r\nDowngraded-B: b\r\n"), [(1, vec![]), (0, b"b".to_vec())]);
    // A rest without CRLF is a line.
    assert_eq!(all(b"X\r\nDowngraded-A: a"), [(1, vec![])]);
    assert_eq!(all(b"Downgraded-A: a\r"), [(1, vec![])]);
    assert_eq!(all(b"Downgraded-A: a\r\n b"), [(1, vec![])]);
    assert_eq!(all(b"Downgraded"), []);
    assert_eq!(all(b" Downgraded-A: a\r\n"), []);
    assert_eq!(all(b"\r\nDowngraded-A: a\r\n"), [(0, b"a".to_vec())]);
}

#[test]
fn malformed_fields() {
    let field = |bytes: &[u8]| all(bytes)[0].0;
    // [6.4]: a line begun by `Downgraded-` is enough.
    for bytes in [
        &b"Downgraded-\r\n"[..],
        b"Downgraded-A\r\n",
        b"Downgraded-A b: c\r\n",
        b"Downgraded-A\t: c\r\n",
        b"Downgraded-A\x7f: c\r\n",
        b"Downgraded-\xC3\xA9: c\r\n",
        b"Downgraded-A\r\n :c\r\n",
        b"Downgraded-A: \0\r\n",
        b"Downgraded-A: \xff\r\n",
        b"Downgraded-A: \xC3\r\n \xA9\r\n",
        b"Downgraded-A: b\n\r\n",
        b"Downgraded-A: \xED\xA0\x80\r\n",
    ] {
        assert_eq!(field(bytes), FIELD, "{:?}", bytes.escape_ascii().to_string());
    }
    assert_eq!(field(b"Downgraded-:\r\n"), TEXT);
    // 87 counts the whole name.
    let name = |len: usize| format!("Downgraded-{}: a\r\n", "n".repeat(len - 11));
    assert_eq!(field(name(87).as_bytes()), TEXT);
    assert_eq!(field(name(88).as_bytes()), FIELD);
    let line = |len: usize| format!("Downgraded-A: b\r\n{}\r\n", " ".repeat(len));
    assert_eq!(field(line(998).as_bytes()), TEXT);
    assert_eq!(field(line(999).as_bytes()), FIELD);
    // [6.5]: only the field's own lines count; there is no bound in size.
    assert_eq!(all(b"\xff\0\r\nDowngraded-A: a\r\n\xff: \n\r\n"), [(0, b"a".to_vec())]);
    let long = "Downgraded-A: b\r\n".to_string() + &" x\r\n".repeat(40_000);
    assert_eq!(all(long.as_bytes())[0].1.len(), 80_001);
}

#[test]
fn texts_and_words() {
    // [6.7]: unfolded, leading blanks gone, trailing ones kept.
    shows("", "");
    shows(" \t", "");
    shows("\r\n \t\r\n a \t\r\n\tb \r\n ", "a \t\tb  ");
    shows(" =?UTF-8?Q?a?= ", "a ");
    shows("  é a", "é a");
    // Between a word and other text white space stays to the byte; between two words all of it goes.
    shows("a \t =?UTF-8?Q?b?= \r\n c", "a \t b  c");
    shows("=?UTF-8?Q?a?= \t\r\n =?utf-8?b?Yg==?=", "ab");
    shows("=?UTF-8?Q?a?= b =?UTF-8?Q?c?=", "a b c");
    shows("=?UTF-8?Q?a?= =?UTF-8?Q??= =?UTF-8?Q?c?=", "ac");
    shows("=?UTF-8?Q??=", "");
    shows("=?UTF-8?B??=", "");
    // The text's two ends count as white space; no other structure.
    shows("=?uTf-8?q?=c3=A9?=", "é");
    shows("(=?UTF-8?Q?a?=)", "(=?UTF-8?Q?a?=)");
    shows("\"=?UTF-8?Q?a?=\"", "\"=?UTF-8?Q?a?=\"");
    shows("\" =?UTF-8?Q?a?= \"", "\" a \"");
    shows("a=?UTF-8?Q?b?=", "a=?UTF-8?Q?b?=");
    shows("=?UTF-8?Q?b?=,", "=?UTF-8?Q?b?=,");
    // A word may not go over a fold: the blank after it parts.
    shows("=?UTF-8?Q?a\r\n b?=", "=?UTF-8?Q?a b?=");
    // [6.11]: control bytes from a word are shown as they are.
    shows("=?UTF-8?Q?=00=0D=0A=7F?=", "\0\r\n\u{7f}");
    shows("=?UTF-8?B?AA0K?=", "\0\r\n");
    // Q words take any byte 33 to 126 but `?` and `=`.
    shows("=?UTF-8?Q?!\"#$%&'()*+,-./:;<>@[\\]^`{|}~_?=", "!\"#$%&'()*+,-./:;<>@[\\]^`{|}~ ");
}

#[test]
fn malformed_words() {
    // [6.8]: words by their ends.
    for word in [
        "=??=", "=?UTF-8?=", "=?UTF-8?Q?=", "=?UTF-8?Q?a?b?=", "=?UTF-8?Q?a?==?UTF-8?Q?b?=", "=???=", "=?UTF-8?QQ?a?=",
        "=?UTF-8??a?=", "=?UTF-8?X?a?=", "=?UTF-8?é?a?=",
    ] {
        refused(word, WORD);
        refused(&format!("a {word} b"), WORD);
    }
    shows("=?=", "=?=");
    shows("?=", "?=");
    shows("=?", "=?");
    shows("=? ?=", "=? ?=");
    for text in ["=", "a=", "a=4", "=4g", "=g4", "é", "\u{1}", "\u{7f}", "=C3=A", "= 41"] {
        refused(&format!("=?UTF-8?Q?{text}?="), WORD);
    }
    shows("=?UTF-8?Q?a b?=", "=?UTF-8?Q?a b?=");
    // [6.10]: padded base64.
    for text in [
        "Y", "YW", "YWI", "YWJj=", "Y===", "====", "=", "==", "YQ=", "YQ==YQ==", "YWI=YQ==", "YR==", "YWJ=", "YW-j",
        "YW_j", "YWJ\u{1}", "é", "YW=j", "YWJjZ",
    ] {
        refused(&format!("=?UTF-8?B?{text}?="), WORD);
    }
    shows("=?UTF-8?B?YQ==?=", "a");
    shows("=?UTF-8?B?YWI=?=", "ab");
    shows("=?UTF-8?B?YWJj?=", "abc");
    shows("=?UTF-8?b?fn5/fw==?=", "~~\u{7f}\u{7f}");
}

#[test]
fn charsets_and_bytes() {
    for charset in
        ["", "é", "UTF8", "UTF-8 ".trim_end(), "utf-7", "US-ASCII", "UTF-8*en", "ISO-8859-1", "UTF-88", "UTF-"]
    {
        let number = if charset == "UTF-8" { None } else { Some(CHARSET) };
        assert_eq!(value(format!("=?{charset}?Q?a?=").as_bytes()).err(), number, "{charset}");
    }
    // [6.9]: within a word 2 comes before 3, whatever the charset, and over the field the lowest.
    refused("=?X?Q?=?=", WORD);
    refused("=?X?Z?a?=", WORD);
    refused("=?X?Q?=FF?=", CHARSET);
    refused("=?UTF-8?Q?=FF?=", UTF8);
    refused("=?UTF-8?Q?=FF?= =?X?Q?a?=", CHARSET);
    refused("=?UTF-8?Q?=FF?= =?X?Q?a?= =??=", WORD);
    refused("=?UTF-8?Q?=FF?= a =?UTF-8?B?a?=", WORD);
    assert_eq!(value(b"=??=\0"), Err(FIELD));
    // [6.10]: word by word.
    refused("=?UTF-8?Q?=C3?= =?UTF-8?Q?=A9?=", UTF8);
    refused("=?UTF-8?B?/w==?=", UTF8);
    refused("=?UTF-8?Q?=ED=A0=80?=", UTF8);
    refused("=?UTF-8?Q?=C0=80?=", UTF8);
    refused("=?UTF-8?Q?=F4=90=80=80?=", UTF8);
    shows("=?UTF-8?Q?=F4=8F=BF=BF?=", "\u{10FFFF}");
}

#[test]
fn rooms() {
    let header = "Downgraded-X: =?UTF-8?Q?=C3=A9?= a\r\n".as_bytes();
    for room in 0..8 {
        let mut buffer = vec![0xEE; room];
        let got = read(header, 0, &mut buffer);
        let number = if room < 4 { ROOM } else { TEXT };
        assert_eq!(got, ReadAnswer { number, start: 0, next: header.len(), length: 4 });
        let written = if room < 4 { 0 } else { 4 };
        assert!(buffer[written..].iter().all(|&b| b == 0xEE));
        assert_eq!(buffer[..written], "é a".as_bytes()[..written]);
    }
    // 5 comes last.
    let refused = |header: &[u8], number: u32| {
        let got = read(header, 0, &mut []);
        assert_eq!((got.number, got.length), (number, 0));
    };
    refused(b"Downgraded-X: a =??=\r\n", WORD);
    refused(b"Downgraded-X: a =??Q??=\r\n", CHARSET);
    refused(b"Downgraded-X: a =?UTF-8?Q?=FF?=\r\n", UTF8);
    refused(b"Downgraded-X a\r\n", FIELD);
    refused(b"Downgraded-X:\r\n", TEXT);
}

#[test]
fn examples_of_rfc_2047() {
    // Section 8 has its table in ISO-8859-1 and in comments. In UTF-8, and with white space for the parentheses, as no
    // structure but white space is seen here.
    shows("=?UTF-8?Q?a?=", "a");
    shows("=?UTF-8?Q?a?= b", "a b");
    shows("=?UTF-8?Q?a?= =?UTF-8?Q?b?=", "ab");
    shows("=?UTF-8?Q?a?=  =?UTF-8?Q?b?=", "ab");
    shows("=?UTF-8?Q?a?=\r\n    =?UTF-8?Q?b?=", "ab");
    shows("=?UTF-8?Q?a_b?=", "a b");
    shows("=?UTF-8?Q?a?= =?UTF-8?Q?_b?=", "a b");
    // As they stand: words of another charset, and none in parentheses.
    for text in [
        "=?US-ASCII?Q?Keith_Moore?= <moore@cs.utk.edu>",
        "=?ISO-8859-1?Q?Keld_J=F8rn_Simonsen?= <keld@dkuug.dk>",
        "=?ISO-8859-1?Q?Andr=E9?= Pirard <PIRARD@vm1.ulg.ac.be>",
        "=?ISO-8859-1?B?SWYgeW91IGNhbiByZWFkIHRoaXMgeW8=?=\r\n =?ISO-8859-2?B?dSB1bmRlcnN0YW5kIHRoZSBleGFtcGxlLg==?=",
        "=?ISO-8859-1?Q?Olle_J=E4rnefors?= <ojarnef@admin.kth.se>",
        "=?ISO-8859-1?Q?Patrik_F=E4ltstr=F6m?= <paf@nada.kth.se>",
    ] {
        refused(text, CHARSET);
    }
    shows("(=?ISO-8859-1?Q?a?=)", "(=?ISO-8859-1?Q?a?=)");
    // Two words that parentheses close off are runs of other bytes; the one in the middle is a word.
    shows("(=?UTF-8?Q?a?= =?UTF-8?Q?b?=)", "(=?UTF-8?Q?a?= =?UTF-8?Q?b?=)");
    let greeting = "Nathaniel Borenstein <nsb@thumper.bellcore.com>\r\n (=?iso-8859-8?b?7eXs+SDv4SDp7Oj08A==?=)";
    shows(greeting, &greeting.replace("\r\n", ""));
}

/// Go 1.19, mime/encodedword_test.go: what speaks of UTF-8.
#[test]
fn examples_of_go() {
    for (text, want) in [
        ("=?UTF-8?Q?=C2=A1Hola,_se=C3=B1or!?=", "¡Hola, señor!"),
        ("=?UTF-8?Q?Fran=C3=A7ois-J=C3=A9r=C3=B4me?=", "François-Jérôme"),
        ("=?utf-8?q?Fran=C3=A7ois-J=C3=A9r=C3=B4me?=", "François-Jérôme"),
        ("=?UTF-8?q?ascii?=", "ascii"),
        ("=?utf-8?B?QW5kcsOp?=", "André"),
        ("=?utf-8?b?IkFudG9uaW8gSm9zw6kiIDxqb3NlQGV4YW1wbGUub3JnPg==?=", "\"Antonio José\" <jose@example.org>"),
        ("=?utf-8?b?Q2Fmw6k=?=", "Café"),
        ("=?UTF-8?Q??=", ""),
        ("Jean", "Jean"),
        // Incomplete words: no run from `=?` to `?=`.
        ("=?", "=?"),
        ("=?UTF-8?", "=?UTF-8?"),
        ("=?UTF-8?Q", "=?UTF-8?Q"),
        ("=?UTF-8?Q?", "=?UTF-8?Q?"),
        ("=?UTF-8?Q?A", "=?UTF-8?Q?A"),
        ("=?UTF-8?Q?A?", "=?UTF-8?Q?A?"),
    ] {
        shows(text, want);
    }
    let (ten, one) = ("=C3=A9".repeat(10), "=C3=A9");
    shows(&format!("=?utf-8?q?{ten}?= =?utf-8?q?{one}?="), &"é".repeat(11));
    // Go's Decode errs at these too, and its DecodeHeader leaves them as they stand: [6] refuses the field ("word malformed",
    // "or of another encoding").
    for text in [
        "=?UTF-8?A?Test?=", "=?UTF-8?Q?A=B?=", "=?UTF-8?Q?=A?=", "=?UTF-8?A?A?=", "=????=", "=?UTF-8???=", "=?UTF-8?=",
        "=?UTF-8?Q?=", "=?utf-8?Q?=?=", "=?utf-8?Q?=A?=",
    ] {
        refused(text, WORD);
    }
    // Go knows these two charsets, and takes others from its caller: "3 other charset".
    for text in
        ["=?ISO-8859-1?Q?Rapha=EBl_Dupont?=", "=?US-ASCII?Q?foo_bar?=", "=?ISO-8859-1?Q?a?= b", "=?charset?Q?foo?="]
    {
        refused(text, CHARSET);
    }
    // Go's words of bytes that are no UTF-8 are decoded with replacement characters: "4 a word's bytes not UTF-8".
    refused(&format!("=?utf-8?q?{}?= =?utf-8?q?=80?=", "=80".repeat(21)), UTF8);
    refused(&format!("=?utf-8?b?{}?= =?utf-8?b?gICA?=", "gICA".repeat(15)), UTF8);
}

/// Python 3.11, test_email: test__encoded_words.py, test__header_value_parser.py, test_headerregistry.py, test_email.py, what
/// speaks of UTF-8. Words of us-ascii are taken over with charset utf-8.
#[test]
fn examples_of_python() {
    for (text, want) in [
        ("=?utf-8?q?foobar?=", "foobar"),
        ("=?utf-8?q?foo=20bar=20?=", "foo bar "),
        ("=?utf-8?q?foo_bar_?=", "foo bar "),
        ("=?utf-8?q?foo=20=20=21=2Cbar?=", "foo  !,bar"),
        ("=?utf-8?b?Zm9v?=", "foo"),
        ("=?utf-8?B?dmk=?=", "vi"),
        ("=?utf-8?q?=C3=89ric?=", "Éric"),
        ("=?utf-8?q?this_is_a_test?=", "this is a test"),
        ("=?utf-8?b?6L+Z5piv5Lit5paH5rWL6K+V77yB?=", "这是中文测试！"),
        ("The =?utf-8?q?=C3=89ric=2C?= Himself", "The Éric, Himself"),
        ("=?utf-8?q?=C3=89ric?= <foo@example.com>", "Éric <foo@example.com>"),
        ("=?utf-8?b?SMOkbnMgV8O8cnN0?= <person@dom.ain>", "Häns Würst <person@dom.ain>"),
        ("=?utf-8?b?xb5sdcWlb3XEjWvDvSBrxa/FiA==?=", "žluťoučký kůň"),
        ("=?utf-8?q?p=C3=B6stal?=", "pöstal"),
        ("=?utf-8?b?6I+K5Zyw5pmC5aSr?=", "菊地時夫"),
        ("Foo =?utf-8?q?Bar=2C_Espa=C3=B1a?=", "Foo Bar, España"),
        ("Foo Bar =?utf-8?b?KEVzcGHDsWEp?=", "Foo Bar (España)"),
        ("Foo =?utf-8?q?B=C3=A4r=2C?= France", "Foo Bär, France"),
        ("=?utf-8?q?=20bob?=", " bob"),
        (
            "=?utf-8?q?We=27re_going_to?=\r\n =?utf-8?q?cter_set?=\r\n =?utf-8?q?_to_see?=",
            "We're going tocter set to see",
        ),
        ("=?utf-8?q?verylon?=\r\n =?utf-8?q?glineco?=", "verylonglineco"),
        ("=?utf-8?b?44CC5LiA6YOo44Gv44OJ44Kk44OE6Kqe44Gn44GZ44GM?=", "。一部はドイツ語ですが"),
        // Python decodes a word inside a quoted string with a defect: here it is no run between white space.
        ("\"=?utf-8?q?=C3=89ric?=\" <foo@example.com>", "\"=?utf-8?q?=C3=89ric?=\" <foo@example.com>"),
        // Python decodes these with a defect for the missing white space: here they are other text.
        ("nowhitespace=?utf-8?q?somevalue?=", "nowhitespace=?utf-8?q?somevalue?="),
        ("=?utf-8?q?somevalue?=nowhitespace", "=?utf-8?q?somevalue?=nowhitespace"),
        ("=?utf-8?q?somevalue?=aa", "=?utf-8?q?somevalue?=aa"),
        (
            "attachment; filename=\"File =?utf-8?q?Name?= With Spaces.pdf\"",
            "attachment; filename=\"File Name With Spaces.pdf\"",
        ),
        ("=?", "=?"),
    ] {
        shows(text, want);
    }
    // Python repairs these with a defect or leaves them: "B text not padded base64", "Q text a fault", "not charset, encoding and
    // text parted by `?`", "another encoding".
    for text in [
        "=?utf-8?b?dmk?=", "=?utf-8?b?dg?=", "=?utf-8?b?dm\u{1}k===?=", "=?utf-8?b?dm\u{1}k?=", "=?utf-8?b?abcde?=",
        "=?utf-8?q?foo?==?utf-8?q?bar?=", "=?utf-8?q?=somevalue?=", "=?badone?=", "=?utf-8?X?somevalue?=",
        "=?us-ascii?b?dmk?=", "=?us-ascii?q?first?==?utf-8?q?second?=",
    ] {
        refused(text, WORD);
    }
    for text in [
        "=?us-ascii?q?foo?=",
        "=?latin-1?q?=20F=fcr=20Elise=20?=",
        "=?us-ascii*jive?q?test?=",
        "=?unknown-8bit?q?foo=ACbar?=",
        "=?utf-8\u{201d}?q?foo=ACbar?=",
        "=?us-ascii?q?first?=  =?utf-8?q?second?=",
    ] {
        refused(text, CHARSET);
    }
}

/// "On a header we wrote, given room, each Downgraded field that we added shows exactly the text we encoded in it, in order."
#[test]
fn our_own_headers_read_back() {
    let mut r = generate::Random::new(6);
    let (mut relay, mut mailbox) = (0, 0);
    for _ in 0..6000 {
        let setting = generate::setting(&mut r);
        let (envelope, header) = generate::input(&mut r, setting);
        let (got, _, out) = call(setting, &envelope, &header);
        if got.number == 0 {
            let want = added_texts(Profile::Relay(Setting::new(setting)), &envelope, &header);
            relay += want.iter().filter(|text| text.is_some()).count();
            matches(out.as_bytes(), &want);
        }
        let mut buffer = vec![0; 80 * header.len() + 20_600];
        let got = downgrade_mailbox(&header, &mut buffer);
        if got.number == 0 {
            let want = added_texts(Profile::Mailbox, b"", &header);
            mailbox += want.iter().filter(|text| text.is_some()).count();
            matches(&buffer[..got.length], &want);
        }
    }
    assert!(relay > 1500 && mailbox > 600, "{relay} {mailbox}");
}

/// Each field that was added, and none for those that came in.
fn matches(out: &[u8], want: &[Option<Vec<u8>>]) {
    let fields = all(out);
    assert_eq!(fields.len(), want.len(), "{}", out.escape_ascii());
    for ((number, text), want) in fields.iter().zip(want) {
        if let Some(want) = want {
            assert_eq!((*number, text), (TEXT, want), "{}", out.escape_ascii());
        }
    }
}

#[test]
fn an_address_field_and_its_copy() {
    let text = "é@x, <é@y <a@y>>, b@z";
    assert_eq!(address_list::replaces(text.as_bytes(), Profile::Relay(Setting::Spool)), Some(true));
    let (_, _, out) = call(0, b"MAIL FROM:<a@x>\r\nRCPT TO:<b@y>\r\n", format!("To: {text}\r\n").as_bytes());
    assert_eq!(all(out.as_bytes()), [(TEXT, text.as_bytes().to_vec())]);
}
