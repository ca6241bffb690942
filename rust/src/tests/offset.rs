//! Tests: the byte that tells why, request [8].

use super::*;

/// The offset of 2 or 5 within the last of these lines, given with its CRLF if it has one; the lines before are good.
fn envelope_stop(line: &[u8], number: usize) -> usize {
    let before = [MAIL.as_bytes(), &RCPT.repeat(number.max(1) - 1).into_bytes()].concat();
    let before = if number == 0 { &[][..] } else { &before };
    let (answer, place, offset) = offset_of(&[before, line].concat(), b"");
    assert_eq!((answer, place), (2, number), "{}", line.escape_ascii());
    offset - before.len()
}

fn header_stop(line: &[u8], number: usize) -> usize {
    let before = b"A: b\r\n".repeat(number);
    let (answer, place, offset) =
        offset_of((MAIL.to_string() + RCPT).as_bytes(), &[&before[..], line, b"A: b\r\n"].concat());
    assert_eq!((answer, place), (5, number), "{}", line.escape_ascii());
    offset - before.len()
}

/// The place of the mark in a line, and the line without it.
fn marked(line: &str) -> (usize, Vec<u8>) {
    let at = line.find('^').unwrap();
    (at, line.replacen('^', "", 1).into_bytes())
}

#[test]
fn offsets_in_malformed_envelope_lines() {
    for line in [
        // [8.1]: what a line may be depends on its number alone.
        "^MAIL FROM:<a@x>",
        "R^SET",
        "RCPT^",
        "RCPT ^ TO:<a@x>",
        "RCPT TO^ :<a@x>",
        "RCPT TO:^ <a@x>",
        "^",
        "^ ",
        "RCPT TO:<^>",
        "RCPT TO:<a^>",
        "RCPT TO:<a@^>",
        "RCPT TO:<^@x:a@x>",
        "RCPT TO:<^.a@x>",
        "RCPT TO:<a.^@x>",
        "RCPT TO:<a.^.b@x>",
        "RCPT TO:<a@^.x>",
        "RCPT TO:<a@x.^>",
        "RCPT TO:<a@x^@y>",
        "RCPT TO:<a^ @x>",
        "RCPT TO:<a@x^ >",
        "RCPT TO:<a@x^",
        "RCPT TO:<a@x>^X",
        "RCPT TO:<a@x>^>",
        "RCPT TO:<a@x>^\t",
        "RCPT TO:<Postmaster^ >",
        "RCPT TO:<Postmasters^>",
        "RCPT TO:<Postmaste^>",
        "RCPT TO:<\"a\"^b@x>",
        "RCPT TO:<\"a\\^é\"@x>",
        "RCPT TO:<\"a^\tb\"@x>",
        "RCPT TO:<\"a^",
        "RCPT TO:<a@[1^[]>",
        "RCPT TO:<a@[1^\\]>",
        "RCPT TO:<a@[^é]>",
        "RCPT TO:<a@[1]^x>",
        "RCPT TO:<a@x> ^",
        "RCPT TO:<a@x> ^ X",
        "RCPT TO:<a@x> ^-X",
        "RCPT TO:<a@x> X^_",
        "RCPT TO:<a@x> X=^",
        "RCPT TO:<a@x> X=^=",
        "RCPT TO:<a@x> X=a^=",
        "RCPT TO:<a@x> X=a^\u{7f}",
        "RCPT TO:<a@x> X=^é",
        "RCPT TO:<a@x> X^é",
        "RCPT TO:<a@x> ^=a",
        // [8.6]
        "RCPT TO:<é@x> ALT-ADDRESS=a ALT-ADDRESS^=a",
        "RCPT TO:<é@x> alt-address=a X Alt-Address^ X",
        "RCPT TO:<é@x> ALT-ADDRESS=a ALT-ADDRESS^",
        "RCPT TO:<é@x> ALT-ADDRESS=a ALT-ADDRESS-^_",
        "RCPT TO:<é@x> ALT-ADDRESS^ X",
        "RCPT TO:<é@x> ALT-ADDRESS^",
        "RCPT TO:<é@x> ALT-ADDRESS=^ X",
        "RCPT TO:<é@x> ALT-ADDRESS=^",
        "RCPT TO:<é@x> ALT-ADDRESS=a ALT-ADDRESSX=a ALT-ADDRESS^=a",
        "RCPT TO:<é@x> ALT-ADDRESS=a^=b",
        "RCPT TO:<é@x> ALT-ADDRESS=^é",
    ] {
        let (at, line) = marked(line);
        for number in [1, 2, 100] {
            assert_eq!(envelope_stop(&[&line[..], b"\r\n"].concat(), number), at, "{}", line.escape_ascii());
        }
    }
    for line in ["^RCPT TO:<a@x>", "MAIL FROM:<Postmaster^>", "MAIL FROM:<^ >", "MAIL FROM:^ <>", "MAIL FROM:<>^<"] {
        let (at, line) = marked(line);
        assert_eq!(envelope_stop(&[&line[..], b"\r\n"].concat(), 0), at, "{}", line.escape_ascii());
    }
    // [8.2], [8.3]: the data end where the line or a line should go on.
    for line in ["R", "RCPT TO:<a", "RCPT TO:<a@x>", "RCPT TO:<a@x>\r", "RCPT TO:<a@x> ALT-ADDRESS"] {
        assert_eq!(envelope_stop(line.as_bytes(), 1), line.len());
        assert_eq!(envelope_stop(line.as_bytes(), 100), line.len());
    }
    assert_eq!(offset_of(b"", b""), (2, 0, 0));
    assert_eq!(offset_of(MAIL.as_bytes(), b""), (2, 1, MAIL.len()));
    assert_eq!(offset_of(&MAIL.as_bytes()[..MAIL.len() - 2], b""), (2, 0, MAIL.len() - 2));
    // [8.4]
    assert_eq!(envelope_stop(b"RCPT TO:<a@x>\rb\r\n", 1), 14);
    assert_eq!(envelope_stop(b"RCPT TO:<a@x>\r\r\n", 1), 14);
    assert_eq!(envelope_stop(b"RCPT TO:<a@x>\nRCPT TO:<b@y>\r\n", 1), 13);
    assert_eq!(envelope_stop(b"RCPT TO:<a\r\n", 1), 10);
    // [8.9]
    for line in ["RCPT TO:<a@x>\r\n", "\r\n", "x", "\n"] {
        assert_eq!(envelope_stop(line.as_bytes(), 101), 0);
    }
    // [8.11]
    for (bad, at) in [
        (&b"\xED\xA0\x80"[..], 1),
        (b"\xC0\x80", 0),
        (b"\xF4\x90\x80\x80", 1),
        (b"\xC3(", 1),
        (b"\x80", 0),
        (b"\xE2\x82@", 2),
        (b"\xF0\x8F\xBF\xBF", 1),
        (b"\xE0\x9F\x80", 1),
        (b"\xF5", 0),
        (b"\xFF", 0),
        (b"\xF0\x9F\x98\r", 3),
    ] {
        assert_eq!(envelope_stop(&[b"RCPT TO:<a", bad, b"@x>\r\n"].concat(), 1), 10 + at);
        assert_eq!(envelope_stop(&[b"RCPT TO:<\"", bad, b"\"@x>\r\n"].concat(), 1), 10 + at);
        assert_eq!(envelope_stop(&[b"RCPT TO:<a@x> ORCPT=", bad, b"\r\n"].concat(), 1), 20 + at);
        assert_eq!(header_stop(&[b"X: ", bad, b"\r\n"].concat(), 1), 3 + at);
    }
}

#[test]
fn the_limit_of_an_envelope_line_looks_ahead() {
    // [8.7]: what must still come after a row of `a` behind each of these, and the byte that no longer fits.
    for (start, rest, need) in [
        ("MAIL FROM:<", "@x>", 3),
        ("MAIL FROM:<a@", ">", 1),
        ("MAIL FROM:<\"", "\"@x>", 4),
        ("MAIL FROM:<a@[", "]>", 2),
        ("MAIL FROM:<> X=", "", 0),
        ("MAIL FROM:<> X", "", 0),
        ("MAIL FROM:<> ORCPT=", "", 0),
    ] {
        let line = |len: usize| start.to_string() + &"a".repeat(len - start.len());
        assert_eq!(envelope(&[&(line(998 - need) + rest), "RCPT TO:<b@y>"]), (0, 0), "{start}");
        for len in [999 - need, 998, 999, 1100] {
            let whole = line(len.max(999 - need)) + rest + "\r\n";
            assert_eq!(envelope_stop(whole.as_bytes(), 0), 998 - need, "{start} {len}");
        }
        // A character of two bytes just fits, or does not.
        if !start.ends_with('[') && !start.ends_with('X') && !start.ends_with("X=") {
            let good = line(996 - need) + "é" + rest;
            assert!(matches!(envelope(&[&good, "RCPT TO:<b@y>"]), (3 | 6, 0)), "{start}");
            let whole = line(997 - need) + "é" + rest + "\r\n";
            assert_eq!(envelope_stop(whole.as_bytes(), 0), 997 - need, "{start}");
            let four = line(995 - need) + "😀" + rest + "\r\n";
            assert_eq!(envelope_stop(four.as_bytes(), 0), 995 - need, "{start}");
        }
    }
    let line = |start: &str, len: usize, end: &str| {
        let fill = "a".repeat(len - start.len() - end.len());
        (start.to_string() + &fill + end + "\r\n").into_bytes()
    };
    // A dot, a backslash, a space, `=` and `@` need more behind them than what stood before.
    assert_eq!(envelope_stop(&line("RCPT TO:<", 995, "."), 1), 994);
    assert_eq!(envelope_stop(&line("RCPT TO:<", 994, "."), 1), 994);
    assert_eq!(envelope_stop(&line("RCPT TO:<\"", 994, "\\"), 1), 993);
    assert_eq!(envelope_stop(&line("RCPT TO:<\"", 993, "\\"), 1), 993);
    assert_eq!(envelope_stop(&line("RCPT TO:<", 997, "@"), 1), 995);
    assert_eq!(envelope_stop(&line("RCPT TO:<a@x> X=", 998, " "), 1), 997);
    assert_eq!(envelope_stop(&line("RCPT TO:<a@x> X=", 997, " "), 1), 997);
    assert_eq!(envelope_stop(&line("RCPT TO:<a@x> X", 998, "="), 1), 997);
    // [8.6]: "at its last `S` when the line has no byte left for that"
    assert_eq!(envelope_stop(&line("RCPT TO:<a@x> X=", 998, " ALT-ADDRESS"), 1), 997);
    assert_eq!(envelope_stop(&line("RCPT TO:<a@x> X=", 997, " ALT-ADDRESS"), 1), 997);
    assert_eq!(envelope_stop(&line("RCPT TO:<a@x> X=", 998, " ALT-ADDRESS="), 1), 997);
    assert_eq!(envelope_stop(&line("RCPT TO:<a@x> ALT-ADDRESS=a X=", 998, " ALT-ADDRESS"), 1), 997);
    assert_eq!(envelope_stop(&line("RCPT TO:<a@x> ALT-ADDRESS=a X=", 997, " ALT-ADDRESS="), 1), 996);
    // The bounds of a whole envelope do not count.
    let long = MAIL.to_string() + &("RCPT TO:<b@y> X=".to_string() + &"z".repeat(900) + "\r\n").repeat(17) + "R";
    assert!(long.len() < 16_384 && long.len() + 998 > 16_384);
    assert_eq!(offset_of(long.as_bytes(), b""), (2, 18, long.len()));
}

#[test]
fn offsets_in_malformed_header_lines() {
    for line in [
        // [8.1], [8.4], [8.12]
        "^", "^: x", "^\u{1}: x", "a^ : x", "a^ b", "a^\t: x", "a^", "a^é: x", "^é: x", "a^\u{7f}: x", "a: ^\0",
        "a: é^\0x", "a: ^\nx", "a^\nb: c",
    ] {
        let (at, line) = marked(line);
        for number in [0, 1, 5] {
            assert_eq!(header_stop(&[&line[..], b"\r\n"].concat(), number), at, "{}", line.escape_ascii());
        }
    }
    assert_eq!(header_stop(b" a: b\r\n", 0), 0);
    assert_eq!(header_stop(b"\ta: b\r\n", 0), 0);
    assert_eq!(header_stop(b" \0\r\n", 1), 1);
    assert_eq!(header_stop(b"a: b\r\r\n", 1), 5);
    assert_eq!(header_stop(b"x: a\rb\r\n", 1), 5);
    assert_eq!(header_stop(format!("{}: x\r\n", "n".repeat(77)).as_bytes(), 1), 76);
    assert_eq!(header_stop(format!("{}\r\n", "n".repeat(76)).as_bytes(), 1), 76);
    // [8.2]
    let good = MAIL.to_string() + RCPT;
    for last in ["X", "X:", "X: a", "X: a\r", " ", "\t\r", "n"] {
        let header = format!("A: b\r\n{last}");
        assert_eq!(offset_of(good.as_bytes(), header.as_bytes()), (5, 1, header.len()), "{last:?}");
    }
    assert_eq!(offset_of(good.as_bytes(), b"X: a\r"), (5, 0, 5));
    assert_eq!(offset_of(good.as_bytes(), b"X: \xF0\x9F"), (5, 0, 5));
    // [8.7]
    for start in ["X:", " "] {
        let line = |len: usize, end: &str| (start.to_string() + &"x".repeat(len - start.len()) + end).into_bytes();
        assert_eq!(header(&[b"A: b\r\n", &line(998, "\r\n")[..]].concat()), (0, 0));
        for len in [999, 1000, 1500] {
            assert_eq!(header_stop(&line(len, "\r\n"), 1), 998);
        }
        for (character, len) in [("é", 2), ("漢", 3), ("😀", 4)] {
            // Where no more whole characters fit.
            for begun in 990..=998 {
                let stop = header_stop(&line(begun, &(character.repeat(9) + "\r\n")), 1);
                assert_eq!(stop, begun + (998 - begun) / len * len);
            }
        }
    }
}

#[test]
fn offsets_of_the_other_refusals() {
    let good = MAIL.to_string() + RCPT;
    // [8.8]
    assert_eq!(offset_of("MAIL FROM:<a@é> SIZE=1\r\n".as_bytes(), b""), (3, 0, 11));
    assert_eq!(offset_of((good.clone() + "RCPT TO:<\"é\"@x>\r\n").as_bytes(), b""), (3, 2, good.len() + 9));
    for value in ["a@x", "+2b", "a"] {
        let line = format!("RCPT TO:<é@x> X=1 Alt-Address={value} Y\r\n");
        let want = if value == "a@x" { (0, 0, 0) } else { (4, 2, good.len() + line.find("ss=").unwrap() + 3) };
        assert_eq!(offset_of((good.clone() + &line).as_bytes(), b""), want);
    }
    assert_eq!(offset_of("MAIL FROM:<> ALT-ADDRESS=a@x\r\n".as_bytes(), b""), (4, 0, 25));
    // [8.5]
    let line = "RCPT TO:<é@x> ORCPT=a ALT-ADDRESS=a@x orcpt=bé ORCPT=é\r\n";
    let envelope = good.clone() + line;
    assert_eq!(offset_of(envelope.as_bytes(), "Date: é\r\n".as_bytes()), (6, 2, envelope.find("bé").unwrap() + 1));
    let header = "A: é\r\nDate: x\r\nDate: (x\r\n y) aé\r\n é\r\nDate: é\r\n";
    assert_eq!(offset_of(good.as_bytes(), header.as_bytes()), (6, 2, header.find("aé").unwrap() + 1));
    assert_eq!(offset_of(good.as_bytes(), "Keywords:é\r\n".as_bytes()), (6, 0, 9));
    assert_eq!(offset_of(good.as_bytes(), "Date: (é) é\r\n".as_bytes()), (6, 0, 7));
    // "For 0, 1, 7 and 8 it is 0."
    assert_eq!(offset_of(good.as_bytes(), "A: é\r\n".as_bytes()), (0, 0, 0));
    assert_eq!(offset_of(&[b'x'; 16_385], b""), (1, 0, 0));
    assert_eq!(offset_of(b"", &[b'x'; 32_769]), (1, 1, 0));
    let refused = downgrade(0, good.as_bytes(), b"A: b\r\n", &mut [0; 31], &mut [0; 6]);
    assert_eq!((refused.number, refused.offset), (7, 0));
    let refused = downgrade(0, good.as_bytes(), b"A: b\r\n", &mut [0; 32], &mut [0; 5]);
    assert_eq!((refused.number, refused.offset), (8, 0));
}

#[test]
fn input_that_an_answer_is_about() {
    let good = MAIL.to_string() + RCPT;
    let orcpt = "MAIL FROM:<a@x>\r\nRCPT TO:<b@y> ORCPT=é\r\n";
    let input = |envelope: &[u8], header: &[u8], rooms: (usize, usize)| {
        let answer = downgrade(0, envelope, header, &mut vec![0; rooms.0], &mut vec![0; rooms.1]);
        (answer.number, answer.input)
    };
    let whole = |envelope: &str, header: &str| input(envelope.as_bytes(), header.as_bytes(), (1000, 1000));
    assert_eq!(whole(&good, "A: é\r\n"), (0, NEITHER));
    assert_eq!(whole(&"x".repeat(16_385), ""), (1, ENVELOPE));
    assert_eq!(whole(&good, &"x".repeat(32_769)), (1, HEADER));
    assert_eq!(whole("", ""), (2, ENVELOPE));
    assert_eq!(whole("MAIL FROM:<é@x>\r\n", "bad"), (3, ENVELOPE));
    assert_eq!(whole("MAIL FROM:<a@x> ALT-ADDRESS=a@x\r\n", ""), (4, ENVELOPE));
    assert_eq!(whole(&good, "bad"), (5, HEADER));
    assert_eq!(whole(orcpt, "Date: é\r\n"), (6, ENVELOPE));
    assert_eq!(whole(&good, "Date: é\r\n"), (6, HEADER));
    assert_eq!(input(good.as_bytes(), b"A: b\r\n", (31, 0)), (7, ENVELOPE));
    assert_eq!(input(good.as_bytes(), b"A: b\r\n", (32, 5)), (8, HEADER));
}

// Envelope lines
