//! The papers' checked examples, each rule, and its near misses; a test of a settled reading tells its number.

mod address_list;
mod batch;
mod envelope;
mod mailbox;
mod offset;
mod parameter;
mod reader;
mod received;
mod words;

use crate::call::{ENVELOPE, HEADER, NEITHER};
use crate::rfc5322::is_address_list;
use crate::sink::Writer;
use crate::words::{base64_size, first_q_word, first_word, row, row_after_name, write_base64, Encoding, ROOM};
use crate::{downgrade, downgrade_batch, Answer};

const MAIL: &str = "MAIL FROM:<a@x>\r\n";

const RCPT: &str = "RCPT TO:<b@y>\r\n";

/// The answer for a message from the spool, and both outputs where it is 0.
pub fn call(envelope: &[u8], header: &[u8]) -> (Answer, String, String) {
    call_set(0, envelope, header)
}

pub fn call_set(setting: u64, envelope: &[u8], header: &[u8]) -> (Answer, String, String) {
    let mut envelope_buffer = vec![0xEE; 20_000];
    let mut header_buffer = vec![0xEE; 80 * header.len() + 21_000];
    let answer = downgrade(setting, envelope, header, &mut envelope_buffer, &mut header_buffer);
    assert!(envelope_buffer[answer.envelope_len..].iter().all(|&b| b == 0xEE));
    assert!(header_buffer[answer.header_len..].iter().all(|&b| b == 0xEE));
    envelope_buffer.truncate(answer.envelope_len);
    header_buffer.truncate(answer.header_len);
    assert!(envelope_buffer.is_ascii() && header_buffer.is_ascii());
    (answer, String::from_utf8(envelope_buffer).unwrap(), String::from_utf8(header_buffer).unwrap())
}

fn answer(envelope: &[u8], header: &[u8]) -> (u32, usize) {
    let (answer, ..) = call(envelope, header);
    (answer.number, answer.place)
}

/// Number, place and offset for an envelope and a header.
fn offset_of(envelope: &[u8], header: &[u8]) -> (u32, usize, usize) {
    let (answer, ..) = call(envelope, header);
    (answer.number, answer.place, answer.offset)
}

/// Number and place for an envelope.
fn envelope(lines: &[&str]) -> (u32, usize) {
    answer((lines.join("\r\n") + "\r\n").as_bytes(), b"")
}

/// Number and place for one RCPT line.
fn rcpt(line: &str) -> (u32, usize) {
    envelope(&["MAIL FROM:<a@x>", line])
}

/// Number and place for a header.
pub fn header(bytes: &[u8]) -> (u32, usize) {
    answer((MAIL.to_string() + RCPT).as_bytes(), bytes)
}

/// The outgoing header.
pub fn out(header: &str) -> String {
    let (answer, _, out) = call((MAIL.to_string() + RCPT).as_bytes(), header.as_bytes());
    assert_eq!(answer.number, 0, "{header:?}");
    out
}

/// The outgoing lines of a field, without CRLF and the first space.
fn lines(header: &str) -> Vec<String> {
    out(header).split_terminator("\r\n").map(|line| line.strip_prefix(' ').unwrap_or(line).to_string()).collect()
}

/// An address field that is encapsulated.
fn unfit(text: &str) {
    let got = out(&format!("To: {text}\r\n"));
    assert!(got.starts_with("Downgraded-To: =?UTF-8?"), "{text:?} gave {got:?}");
}

/// An address field that is rewritten as these lines.
fn fits(text: &str, pieces: &[&str]) {
    let field = out(&format!("To: {text}\r\n"));
    let value = field.split("\r\nDowngraded-").next().unwrap().trim_end_matches("\r\n").strip_prefix("To:").unwrap();
    assert!(is_address_list(value.as_bytes()), "{value:?}");
    let mut got = lines(&format!("To: {text}\r\n"));
    assert_eq!(got.remove(0), "To:", "{text:?}");
    if let Some(copy) = got.iter().position(|line| line.starts_with("Downgraded-To: =?UTF-8?")) {
        got.truncate(copy);
    }
    assert_eq!(got, pieces, "{text:?}");
}

/// "A row is read from its bytes alone, front to back." The text and the words' bytes; none for a fault. [10]: "document
/// 01's reading then takes `=?UTF-8?B?` words too, by base64".
pub fn read_row(row: &[u8]) -> Option<(Vec<u8>, Vec<Vec<u8>>)> {
    let (mut words, mut rest, mut closed) = (Vec::new(), row, false);
    while !rest.is_empty() {
        if let Some(behind) = rest.strip_prefix(b"\r\n").or(rest.strip_prefix(b" ")) {
            rest = behind;
            closed = false;
            continue;
        }
        let (open, text) = rest.split_at_checked(10)?;
        let (word, behind) = match open {
            // "straight after the `?=` of another it is a fault"
            _ if closed => return None,
            b"=?UTF-8?Q?" => read_q(text)?,
            b"=?UTF-8?B?" => read_b(text)?,
            _ => return None,
        };
        words.push(word);
        rest = behind;
        closed = true;
    }
    Some((words.concat(), words))
}

/// The bytes of a Q word, from behind its opening bracket, and what stands behind its closing one.
fn read_q(text: &[u8]) -> Option<(Vec<u8>, &[u8])> {
    let (mut word, mut rest) = (Vec::new(), text);
    loop {
        rest = match rest {
            [b'_', rest @ ..] => (word.push(32), rest).1,
            [b'=', high, low, rest @ ..] => {
                let digit = |b: &u8| (*b as char).to_digit(16);
                word.push((digit(high)? * 16 + digit(low)?) as u8);
                rest
            }
            [b'?', b'=', rest @ ..] => return Some((word, rest)),
            [b'?' | b'=', ..] => return None,
            [b @ 33..=126, rest @ ..] => (word.push(*b), rest).1,
            _ => return None,
        }
    }
}

/// The same for a B word. [10.6]: "groups of four digits, `=` only as padding at the end, spare bits zero; anything else
/// [..] is a fault; nothing at all between the brackets reads as nothing."
fn read_b(text: &[u8]) -> Option<(Vec<u8>, &[u8])> {
    let digit = |b: u8| {
        let value = match b {
            b'A'..=b'Z' => b - b'A',
            b'a'..=b'z' => b - b'a' + 26,
            b'0'..=b'9' => b - b'0' + 52,
            b'+' => 62,
            b'/' => 63,
            _ => return None,
        };
        Some(u32::from(value))
    };
    let (mut word, mut rest) = (Vec::new(), text);
    loop {
        let (four, behind) = match rest {
            [b'?', b'=', behind @ ..] => return Some((word, behind)),
            _ => rest.split_at_checked(4)?,
        };
        let padding = four.iter().rev().take_while(|&&b| b == b'=').count();
        let digits: Vec<u32> = four[..4 - padding].iter().map(|&b| digit(b)).collect::<Option<_>>()?;
        let bits = digits.iter().fold(0, |bits, digit| bits << 6 | digit) << (6 * padding);
        let bytes = match padding {
            0 => 3,
            1 if bits & 0xFF == 0 => 2,
            2 if bits & 0xFFFF == 0 => 1,
            _ => return None,
        };
        word.extend_from_slice(&bits.to_be_bytes()[1..1 + bytes]);
        // Padding ends the digits.
        if padding > 0 && !behind.starts_with(b"?=") {
            return None;
        }
        rest = behind;
    }
}

/// The words of a row, which has to read back as this text in whole characters.
fn words_of(row: &str, text: &str) -> Vec<String> {
    let (read, words) = read_row(row.as_bytes()).unwrap();
    assert_eq!(read, text.as_bytes());
    assert!(words.iter().all(|word| std::str::from_utf8(word).is_ok()));
    row.split("\r\n").filter(|line| !line.is_empty()).map(|line| line.strip_prefix(' ').unwrap().into()).collect()
}

/// The words of a text, each on a line of its own.
fn row_words(text: &str) -> Vec<String> {
    let mut buffer = vec![0; 20 * text.len() + 40];
    let mut writer = Writer { buffer: &mut buffer, at: 0 };
    row(&mut writer, text.as_bytes());
    let len = writer.at;
    let row = std::str::from_utf8(&buffer[..len]).unwrap();
    assert!(row.starts_with("\r\n =?") && row.split("\r\n").all(|line| line.len() <= 76), "{row:?}");
    words_of(row, text)
}

/// The words of the field that is written for a field of this name and text.
fn field_words(name: &str, written_name: &str, text: &str) -> Vec<String> {
    let field = out(&format!("{name}: {text}\r\n"));
    let row = field.strip_prefix(written_name).unwrap().strip_prefix(':').unwrap().strip_suffix("\r\n").unwrap();
    for line in field.split("\r\n") {
        assert!(line.len() <= 76 || !line.contains("=?"), "{line}");
    }
    words_of(row, text)
}

fn subject_words(text: &str) -> Vec<String> {
    field_words("Subject", "Subject", text)
}

// Checked examples

const WHOLE_ENVELOPE: &str = "MAIL FROM:<é@example.org> ALT-ADDRESS=e+2Bx@example.org\r\nRCPT TO:<b@example.net>\r\n";

const WHOLE_HEADER: &str = "Subject: é\r\nX-Note: ok\r\n";

#[test]
fn whole_case() {
    let (answer, envelope, header) = call(WHOLE_ENVELOPE.as_bytes(), WHOLE_HEADER.as_bytes());
    // [10.9]
    assert_eq!(answer, Answer { number: 0, input: NEITHER, place: 0, offset: 0, envelope_len: 54, header_len: 140 });
    assert_eq!(envelope, "MAIL FROM:<e+x@example.org>\r\nRCPT TO:<b@example.net>\r\n");
    assert_eq!(
        header,
        "Downgraded-Mail-From: =?UTF-8?B?PMOpQGV4YW1wbGUub3JnIDxlK3hAZXhhbXBsZS5v?=\r\n \
         =?UTF-8?Q?rg=3E=3E?=\r\nSubject: =?UTF-8?Q?=C3=A9?=\r\nX-Note: ok\r\n"
    );
}

#[test]
fn buffers_of_just_the_length() {
    for (envelope_room, header_room, want) in [
        (54, 140, (0, 0, 54, 140)),
        (54, 139, (8, 140, 0, 0)),
        (53, 140, (7, 54, 0, 0)),
        (53, 139, (7, 54, 0, 0)),
        (0, 0, (7, 54, 0, 0)),
        (54, 0, (8, 140, 0, 0)),
    ] {
        let mut envelope_buffer = vec![0xEE; envelope_room];
        let mut header_buffer = vec![0xEE; header_room];
        let a =
            downgrade(0, WHOLE_ENVELOPE.as_bytes(), WHOLE_HEADER.as_bytes(), &mut envelope_buffer, &mut header_buffer);
        assert_eq!((a.number, a.place, a.envelope_len, a.header_len), want);
        if a.number != 0 {
            assert!(envelope_buffer.iter().chain(&header_buffer).all(|&b| b == 0xEE));
        }
    }
}

/// The parts of a text that words of Q alone would hold.
fn cut_by_q(text: &str) -> Vec<&str> {
    let (mut parts, mut rest) = (Vec::new(), text);
    while !rest.is_empty() {
        let (part, behind) = rest.split_at(first_q_word(rest.as_bytes(), ROOM).len);
        parts.push(part);
        rest = behind;
    }
    parts
}

#[test]
fn word_cases() {
    // [10.8]: "Document 01's word cases stay as those of Q alone".
    let ten = "é".repeat(10);
    let abc = ten.clone() + "abc";
    assert_eq!(cut_by_q(&abc), [&abc]);
    assert_eq!(first_q_word(abc.as_bytes(), ROOM).size, 63);
    assert_eq!(cut_by_q(&(ten.clone() + "abcd")), [&abc, "d"]);
    assert_eq!(cut_by_q(&"é".repeat(11)), [&ten, "é"]);
    assert_eq!(cut_by_q(&("abcd".to_string() + &ten)), ["abcdééééééééé", "é"]);
    assert_eq!(cut_by_q(&"😀".repeat(6)), ["😀😀😀😀😀", "😀"]);
    // What the call writes for them.
    assert_eq!(row_words(&abc), [format!("=?UTF-8?Q?{}abc?=", "=C3=A9".repeat(10))]);
    assert_eq!(row_words(&(abc + "d")).len(), 1);
    assert_eq!(row_words(&"é".repeat(11)), ["=?UTF-8?B?w6nDqcOpw6nDqcOpw6nDqcOpw6nDqQ==?="]);
    assert_eq!(row_words(&("abcd".to_string() + &ten)), ["=?UTF-8?B?YWJjZMOpw6nDqcOpw6nDqcOpw6nDqcOp?="]);
    assert_eq!(row_words(&"😀".repeat(6)), ["=?UTF-8?B?8J+YgPCfmIDwn5iA8J+YgPCfmIDwn5iA?="]);
}

#[test]
fn alternatives_of_the_paper() {
    assert_eq!(rcpt("RCPT TO:<é@y> ALT-ADDRESS=a+0D+0Ab@x"), (4, 1));
    assert_eq!(rcpt("RCPT TO:<é@y> ALT-ADDRESS=e+2bx@y"), (4, 1));
    assert_eq!(rcpt("RCPT TO:<b@y> ALT-ADDRESS=e@y"), (4, 1));
    assert_eq!(rcpt("RCPT TO:<é@y>"), (3, 1));
    assert_eq!(rcpt("RCPT TO:<é@y> ALT-ADDRESS=e+2Bx@y"), (0, 0));
}

#[test]
fn missing_lines() {
    assert_eq!(answer(b"", b""), (2, 0));
    assert_eq!(answer(MAIL.as_bytes(), b""), (2, 1));
    assert_eq!(answer(RCPT.as_bytes(), b""), (2, 0));
    assert_eq!(answer(b"MAIL FROM:<a@x>", b""), (2, 0));
    assert_eq!(answer(b"MAIL FROM:<a@x>\r\nRCPT TO:<b@y>", b""), (2, 1));
    assert_eq!(answer(b"MAIL FROM:<a@x>\r\nRCPT TO:<b@y>\r", b""), (2, 1));
    assert_eq!(answer(b"MAIL FROM:<a@x>\r\nRCPT TO:<b@y>\r\n\r\n", b""), (2, 2));
    assert_eq!(answer(b"MAIL FROM:<a@x>\nRCPT TO:<b@y>\r\n", b""), (2, 0));
    assert_eq!(answer(b"MAIL FROM:<a@x>\r\r\nRCPT TO:<b@y>\r\n", b""), (2, 0));
    assert_eq!(answer("MAIL FROM:<é@x>\r\n".as_bytes(), b""), (3, 0));
}

#[test]
fn one_hundred_recipients() {
    let line = "RCPT TO:<b@y>\r\n";
    assert_eq!(answer((MAIL.to_string() + &line.repeat(100)).as_bytes(), b""), (0, 0));
    assert_eq!(answer((MAIL.to_string() + &line.repeat(101)).as_bytes(), b""), (2, 101));
    assert_eq!(answer((MAIL.to_string() + &line.repeat(100) + "x").as_bytes(), b""), (2, 101));
}

#[test]
fn names_and_lines_at_their_limits() {
    let name = "n".repeat(76);
    assert_eq!(header(format!("{name}: é\r\n").as_bytes()), (0, 0));
    assert_eq!(header(format!("{name}n: é\r\n").as_bytes()), (5, 0));
    assert_eq!(header(format!("A: b\r\n{name}n: e\r\n").as_bytes()), (5, 1));
    let line = "A:".to_string() + &"b".repeat(996);
    assert_eq!(header(format!("{line}\r\n").as_bytes()), (0, 0));
    assert_eq!(header(format!("{line}b\r\n").as_bytes()), (5, 0));
    let path = "RCPT TO:<".to_string() + &"b".repeat(986) + "@y>";
    assert_eq!(path.len(), 998);
    assert_eq!(rcpt(&path), (0, 0));
    assert_eq!(rcpt(&path.replace('@', "b@")), (2, 1));
}

#[test]
fn removed_address() {
    assert_eq!(
        lines("To: é@example.org\r\n"),
        [
            "To:",
            "Internationalized Address",
            "=?UTF-8?Q?=C3=A9=40example=2Eorg?=",
            "Removed:;",
            "Downgraded-To: =?UTF-8?Q?=C3=A9=40example=2Eorg?="
        ]
    );
}

// Answers by number

#[test]
fn sizes() {
    let envelope = vec![b'x'; 16_385];
    let header = vec![b'x'; 32_769];
    assert_eq!(answer(&envelope, &header), (1, 0));
    assert_eq!(answer(&envelope, b""), (1, 0));
    assert_eq!(answer(b"", &header), (1, 1));
    assert_eq!(answer(&envelope[1..], &header[1..]), (2, 0));
    assert_eq!(answer((MAIL.to_string() + RCPT).as_bytes(), &header[1..]), (5, 0));
}

#[test]
fn order_of_refusals() {
    let good = MAIL.to_string() + RCPT;
    let orcpt = "MAIL FROM:<a@x>\r\nRCPT TO:<b@y>\r\nRCPT TO:<b@y> ORCPT=é\r\n";
    // The first envelope line at fault, whatever its number.
    assert_eq!(envelope(&["MAIL FROM:<é@x>", "RCPT TO:<b@y> ALT-ADDRESS=a@x", "x"]), (3, 0));
    assert_eq!(envelope(&["MAIL FROM:<a@x> ALT-ADDRESS=a@x", "RCPT TO:<é@y>"]), (4, 0));
    // The lowest number within a line: malformed before the others.
    assert_eq!(envelope(&["MAIL FROM:<é@x> -", "RCPT TO:<b@y>"]), (2, 0));
    assert_eq!(envelope(&["MAIL FROM:<a@x> ALT-ADDRESS=+ x=", "RCPT TO:<b@y>"]), (2, 0));
    // Envelope before header, 5 before 6, ORCPT before held names.
    assert_eq!(answer("MAIL FROM:<a@x>\r\nRCPT TO:<é@y>\r\n".as_bytes(), b"bad"), (3, 1));
    assert_eq!(answer(orcpt.as_bytes(), "Date: é\r\nbad\r\n".as_bytes()), (5, 1));
    assert_eq!(answer(orcpt.as_bytes(), "Date: é\r\n".as_bytes()), (6, 2));
    assert_eq!(answer(good.as_bytes(), "A: b\r\n c\r\nDate:\r\n é\r\n".as_bytes()), (6, 2));
    // 6 before 7 and 8.
    let refused = downgrade(0, good.as_bytes(), "Date: é\r\n".as_bytes(), &mut [], &mut []);
    assert_eq!((refused.number, refused.place), (6, 0));
    let refused = downgrade(0, good.as_bytes(), b"A: b\r\n", &mut [], &mut []);
    assert_eq!((refused.number, refused.place), (7, 32));
}

// The offset

#[test]
fn header_line_forms() {
    for (bytes, want) in [
        (&b""[..], (0, 0)),
        (b"A:\r\n", (0, 0)),
        (b"A:\r\n \r\n\t\r\n", (0, 0)),
        (b"!~\"<@>: \x01\x7f\r\n", (0, 0)),
        (b"A: b", (5, 0)),
        (b"A: b\r", (5, 0)),
        (b"A: b\n", (5, 0)),
        (b"\r\n", (5, 0)),
        (b"A: b\r\n\r\n", (5, 1)),
        (b" A: b\r\n", (5, 0)),
        (b"\tA: b\r\n", (5, 0)),
        (b": b\r\n", (5, 0)),
        (b"A b\r\n", (5, 0)),
        (b"A : b\r\n", (5, 0)),
        (b"A\r\n", (5, 0)),
        (b"A\x7f: b\r\n", (5, 0)),
        ("É: b\r\n".as_bytes(), (5, 0)),
        (b"A: \0\r\n", (5, 0)),
        (b"A: b\r\n c\0\r\n", (5, 1)),
        (b"A: b\rc\r\n", (5, 0)),
        (b"A: b\nc: d\r\n", (5, 0)),
        (b"A: b\r\r\n", (5, 0)),
        (b"A: b\r\n\n", (5, 1)),
    ] {
        assert_eq!(header(bytes), want, "{bytes:?}");
    }
}

#[test]
fn continuation_of_999() {
    let line = " ".to_string() + &"b".repeat(997);
    assert_eq!(header(format!("A:\r\n{line}\r\n").as_bytes()), (0, 0));
    assert_eq!(header(format!("A:\r\n{line}b\r\n").as_bytes()), (5, 1));
}

#[test]
fn ascii_values_are_copied() {
    let header = "from: a@x <<\r\nDate: x\r\nSUBJECT:x\r\nX:\r\n \r\n";
    assert_eq!(out(header), header);
}

#[test]
fn every_name() {
    let held = [
        "Received", "Date", "Resent-Date", "Message-ID", "Resent-Message-ID", "In-Reply-To", "References",
        "MIME-Version", "Content-Type", "Content-ID", "Content-Disposition", "Content-Transfer-Encoding",
        "Original-Recipient", "Final-Recipient", "Keywords",
    ];
    let address = ["From", "Sender", "Reply-To", "To", "Cc", "Bcc"];
    let mut addresses: Vec<String> = address.iter().map(|name| name.to_string()).collect();
    addresses.extend(address.iter().map(|name| format!("Resent-{name}")));
    addresses.extend(["Return-Path".to_string(), "Disposition-Notification-To".to_string()]);
    let cases = |name: &str| [name.to_string(), name.to_lowercase(), name.to_uppercase()];
    // [1]: "Date to MIME-Version in document 01's list, Content-ID and Content-Transfer-Encoding"; [2]: Received; [7]:
    // Content-Type and Content-Disposition
    let commented = [0, 1, 2, 3, 4, 5, 6, 7, 8, 9, 10, 11].map(|at| held[at]);
    for name in held.iter().flat_map(|name| cases(name)) {
        assert_eq!(header(format!("{name}: é\r\n").as_bytes()), (6, 0));
        let comment = format!("{name}: (é)\r\n");
        if commented.iter().any(|commented| commented.eq_ignore_ascii_case(&name)) {
            assert_eq!(out(&comment), format!("{name}: (\r\n =?UTF-8?Q?=C3=A9?=\r\n )\r\n"));
        } else {
            assert_eq!(header(comment.as_bytes()), (6, 0), "{name}");
        }
        assert_eq!(header(format!("{name}: e\r\n").as_bytes()), (0, 0));
        assert!(out(&format!("{name}s: é\r\n")).starts_with(&format!("Downgraded-{name}s: =?")));
    }
    for name in addresses.iter().flat_map(|name| cases(name)) {
        assert_eq!(
            lines(&format!("{name}: é <a@x>\r\n")),
            [format!("{name}:"), "=?UTF-8?Q?=C3=A9?=".into(), "<a@x>".into()]
        );
    }
    for name in ["Subject", "Comments", "Content-Description"].iter().flat_map(|name| cases(name)) {
        assert_eq!(out(&format!("{name}: é\r\n")), format!("{name}: =?UTF-8?Q?=C3=A9?=\r\n"));
    }
    for name in ["X", "Downgraded-X", "Content-Language", "Subjec", "Subject-", "Resent-Subject", "Resent-Return-Path"]
    {
        assert_eq!(out(&format!("{name}: é\r\n")), format!("Downgraded-{name}: =?UTF-8?Q?=C3=A9?=\r\n"));
    }
}

#[test]
fn text_of_a_field() {
    assert_eq!(subject_words("=?UTF-8?Q?=C3=A9?= é")[0], "=?UTF-8?Q?=3D=3FUTF-8=3FQ=3F=3DC3=3DA9=3F=3D_=C3=A9?=");
    assert_eq!(out("Subject:\r\n \t\r\n\té \r\n \tx\t\r\n"), "Subject: =?UTF-8?Q?=C3=A9__=09x=09?=\r\n");
    assert_eq!(
        out("To:\r\n \t\r\n\té\r\n <a@x>\r\n\t,\r\n b@y\r\n \r\n"),
        "To:\r\n =?UTF-8?Q?=C3=A9?=\r\n <a@x>,\r\n b@y\r\n"
    );
    // A fold inside a quoted string leaves its space; a TAB makes it none.
    fits("\"a\r\n é\" <b@x>", &["=?UTF-8?Q?a_=C3=A9?=", "<b@x>"]);
    unfit("\"a\r\n\té\" <b@x>");
}

/// Small random numbers for tests.
pub fn numbers(seed: u32) -> impl FnMut(usize) -> usize {
    let mut state = seed;
    move |limit| {
        state = state.wrapping_mul(1_664_525).wrapping_add(1_013_904_223);
        (state >> 8) as usize % limit
    }
}
