//! Made-up envelopes.

use super::*;

fn xtext(r: &mut Random, out: &mut Vec<u8>, text: &[u8]) {
    let much = r.once_in(4);
    for &b in text {
        if !(33..=126).contains(&b) || b == b'+' || b == b'=' || (much && r.once_in(2)) {
            out.extend_from_slice(format!("+{b:02X}").as_bytes());
        } else {
            out.push(b);
        }
    }
}

/// The value of an ALT-ADDRESS: good, or one of the ways to be no xtext of an ASCII address.
fn alternative(r: &mut Random, out: &mut Vec<u8>, good: bool) {
    let mut text = Vec::new();
    let long = r.from(20, 300);
    address(r, &mut text, long, false);
    if good {
        xtext(r, out, &text);
        return;
    }
    match r.below(9) {
        0 => out.extend_from_slice(
            r.pick(&[
                "a+0D+0Ab@x", "+2b@x", "a+@x", "a@x+", "a@x+4", "a+4g@x", "Postmaster", "a", "@", "+", "<a@x>", "a@x.",
                "\"a+09\"@x", "a+00@x", "a+20b@x", "a+7F@x", "a+40", "a@x+0D+0A",
            ])
            .as_bytes(),
        ),
        1 => {
            text.clear();
            address(r, &mut text, 20, true);
            xtext(r, out, &text);
        }
        2 => {
            xtext(r, out, &text);
            out.extend_from_slice(r.pick(&["+2b", "+", "+A", "+zz", "@x", ",", ">", "+20", "+0A"]).as_bytes());
        }
        3 => {
            let at = r.below(text.len());
            text.remove(at);
            xtext(r, out, &text);
            if out.is_empty() {
                out.push(b'a');
            }
        }
        _ => {
            let at = r.below(text.len() + 1);
            let b = r.byte(b"\r\n\t\0 ,:;<>@\"\\.[]()\x7f\x80\xc3\xff");
            text.insert(at, b);
            xtext(r, out, &text);
        }
    }
}

fn envelope_parameter(r: &mut Random, out: &mut Vec<u8>) {
    out.push(b' ');
    match r.below(7) {
        0 => in_any_case(r, out, "SIZE=1000"),
        1 => in_any_case(r, out, "BODY=8BITMIME"),
        2 => in_any_case(r, out, "ORCPT=rfc822;a+2Bb@x"),
        3 => {
            let parameter = r.pick(&["UTF8SMTP", "ORCPT", "ALT-ADDRES=a@x", "ALT-ADDRESSX"]);
            in_any_case(r, out, parameter);
        }
        _ => {
            out.push(r.byte(b"abzABZ019"));
            for _ in 0..r.below(5) {
                out.push(r.byte(b"azAZ09-"));
            }
            if r.once_in(2) {
                out.push(b'=');
                for _ in 0..r.from(1, 8) {
                    out.push(r.byte(b"!\"#+-,./09:;<>?@AZ[\\]^_az{|}~"));
                }
            }
        }
    }
}

/// How often an envelope's line is at fault, once in so many.
const FAULT: usize = 24;

fn envelope_line(r: &mut Random, out: &mut Vec<u8>, mail: bool, faults: bool) {
    let start = out.len();
    in_any_case(r, out, if mail { "MAIL FROM:" } else { "RCPT TO:" });
    out.push(b'<');
    let mut alternatives = 0;
    let fault = if faults { r.below(FAULT) } else { FAULT };
    if r.once_in(8) && fault > 3 {
        if !mail {
            in_any_case(r, out, "Postmaster");
        }
    } else {
        let non_ascii = r.once_in(2) && fault != 1 && fault != 2 || fault == 0 || fault == 3;
        let limit = if r.once_in(4) { r.from(900, 990) } else { 60 };
        address(r, out, limit, non_ascii);
        alternatives = if non_ascii && fault != 0 { 1 } else { 0 };
    }
    if fault == 1 || (r.once_in(200) && faults) {
        alternatives += 1;
    }
    out.push(b'>');
    let mut others = if r.once_in(3) { r.below(4) } else { 0 };
    while alternatives + others > 0 {
        if r.below(alternatives + others) < alternatives {
            out.push(b' ');
            in_any_case(r, out, "ALT-ADDRESS");
            out.push(b'=');
            alternative(r, out, fault != 3);
            alternatives -= 1;
        } else {
            envelope_parameter(r, out);
            others -= 1;
        }
    }
    if fault == 4 {
        out.push(b' ');
        in_any_case(r, out, "ORCPT=");
        out.extend_from_slice(b"utf-8;");
        atom(r, out, 5, true);
    }
    if r.once_in(20) && fault != 2 {
        pad(r, out, start);
    }
    if fault == 5 && r.once_in(2) {
        damage_line(r, out, start);
    }
    out.extend_from_slice(b"\r\n");
}

/// Makes the line about 998 bytes long.
fn pad(r: &mut Random, out: &mut Vec<u8>, start: usize) {
    let end = start + r.from(996, 999);
    if out.len() + 4 < end {
        out.extend_from_slice(b" X=");
        while out.len() < end {
            out.push(b'y');
        }
    }
}

/// One change in the line by what a malformed line may look like.
fn damage_line(r: &mut Random, out: &mut Vec<u8>, start: usize) {
    match r.below(4) {
        0 => out.extend_from_slice(
            r.pick(&[
                " ", "  X", " -X", " X=", " =", " X=a=b", "\tX", " Xé", " X=é", " ALT-ADDRESS", " alt-address=",
                " ALT-ADDRESS=é@x", " ALT-ADDRESS=a@x ALT-ADDRESS=a@x", "x", ">", " X_", " X=\x7f",
            ])
            .as_bytes(),
        ),
        1 => {
            out.truncate(start);
            out.extend_from_slice(
                r.pick(&[
                    "", "DATA", "MAIL FROM:", "RCPT TO: <a@x>", "RCPT TO:<>", "MAIL FROM:<Postmaster>",
                    "RCPT TO:<@a:b@x>", "RCPT TO:<@a,@b:c@d>", "RCPT  TO:<a@x>", "RCPT TO:a@x", "RCPT TO:<a>",
                    "RCPT TO:<Postmaster >", "MAIL FROM:< >", "RCPT TO:<a@x", "MAIL FROM:<a@x>\r", "RCPT TO:<a@x>\n",
                    "RCPT TO:<\"\\é\"@x> ALT-ADDRESS=a@x", "RCPT TO:<a@[é]> ALT-ADDRESS=a@x",
                    "RCPT TO:<Postmaster> ALT-ADDRESS=a@x", "MAIL FROM:<> ALT-ADDRESS=a@x", "MAIL FROM:<a@[[]>",
                ])
                .as_bytes(),
            );
        }
        _ => {
            let at = r.from(start, out.len() - 1);
            match r.below(3) {
                0 => out[at] = r.byte(SPECIAL),
                1 => out.insert(at, r.byte(SPECIAL)),
                _ => {
                    out.remove(at);
                }
            }
        }
    }
}

pub fn envelope(r: &mut Random) -> Vec<u8> {
    let mut out = Vec::new();
    let lines = match r.below(300) {
        0 => 0,
        1..=4 => r.from(100, 103),
        5..=10 => r.from(10, 30),
        11..=13 => return long_envelope(r),
        14..=150 => 2,
        _ => r.from(2, 5),
    };
    let faults = lines < 10 && r.once_in(2);
    for line in 0..lines {
        if lines > 99 && line > 0 && !r.once_in(20) {
            out.extend_from_slice(b"RCPT TO:<b@y>\r\n");
        } else {
            envelope_line(r, &mut out, line == 0, faults);
        }
    }
    if r.once_in(150) {
        out.extend_from_slice(r.pick(&["\r\n", "x", "RCPT TO:<a@x>", "MAIL FROM:<a@x>\r\n", "\n", "\r"]).as_bytes());
    }
    out
}

/// A good line, mostly one that is not refused for what it has of alternatives.
fn good_line(r: &mut Random, out: &mut Vec<u8>, mail: bool, setting: u64) {
    let start = out.len();
    let any = r.once_in(40);
    loop {
        envelope_line(r, out, mail, false);
        let line = out[start..].to_ascii_lowercase();
        let alternative = line.windows(12).any(|part| part == b"alt-address=");
        if setting == 0 || any || !alternative {
            return;
        }
        out.truncate(start);
    }
}

/// Two envelopes with the same MAIL line, each with two or more RCPT lines; now and then some of these are the same.
pub fn envelope_pair(r: &mut Random, setting: u64) -> (Vec<u8>, Vec<u8>) {
    let mut one = Vec::new();
    good_line(r, &mut one, true, setting);
    let mut other = one.clone();
    let mut shared = Vec::new();
    good_line(r, &mut shared, false, setting);
    for envelope in [&mut one, &mut other] {
        let lines = if r.once_in(60) { r.from(90, 100) } else { r.from(2, 5) };
        for _ in 0..lines {
            if r.once_in(4) || (lines > 10 && !r.once_in(20)) {
                envelope.extend_from_slice(&shared);
            } else {
                good_line(r, envelope, false, setting);
            }
        }
    }
    (one, other)
}

/// A short line in which every place of the grammar is about as likely.
fn short_line(r: &mut Random, out: &mut Vec<u8>, mail: bool) {
    in_any_case(r, out, if mail { "MAIL FROM:<" } else { "RCPT TO:<" });
    let locals = ["a", "a.b", "é", "é.a", "\"\"", "\"a\"", "\"\\a\"", "\"é\"", "Postmaster", "postmaste", "😀b"];
    out.extend_from_slice(r.pick(&locals).as_bytes());
    out.push(b'@');
    out.extend_from_slice(r.pick(&["x", "x.y", "é", "漢.x", "[]", "[1.2]", "[a", "x"]).as_bytes());
    out.push(b'>');
    for _ in 0..r.below(4) {
        out.push(b' ');
        let parameters = [
            "X", "X-", "X=1", "ORCPT=é", "orcpt=a漢b", "ORCPT", "ALT-ADDRESS=a@x", "ALT-ADDRESS", "Alt-AddressX",
            "S=😀",
        ];
        let parameter = r.pick(&parameters);
        in_any_case(r, out, parameter);
    }
}

/// What may stand before and behind the long part of an envelope line, from its `<` on.
const FULL: &[&str] = &[
    "", "a.", "\"", "a@", "a@x.", "a@[", "a@x> X", "a@x> X=", "a@x> ORCPT=", "a@x> ALT-ADDRESS=",
    "a@x> ALT-ADDRESS=a X=",
];

const FULL_ENDS: &[&str] = &[
    "a", ".", ".é", "\\", "\"", "@", "@x", "@é", "@[", "@x>", "@x.é", ">", "]", "]>", " ", "=", " ORCPT=é", "-",
    " ALT-ADDRESS", " ALT-ADDRESS=", "é", "😀",
];

/// An envelope line at each place of its grammar, from its `<` on.
const PLACES: &[&str] = &[
    "", "a", "a.", "\"", "\"\\", "\"a\"", "a@", "a@x", "a@x.", "a@[", "a@[1]", "a@x>", "a@x> ", "a@x> X", "a@x> X=",
    "a@x> X=1", "a@x> ORCPT=", "a@x> ORCPT=é", "é@x> ALT-ADDRESS", "é@x> ALT-ADDRESS=a X", "Postmaster",
    "é@x> alt-address=a Alt-Address",
];

/// Good lines, then one that is malformed or nearly so, then perhaps no more.
pub(super) fn malformed_envelope(r: &mut Random) -> Vec<u8> {
    let mut out = Vec::new();
    let number = match r.below(20) {
        0 => 100,
        1 => 101,
        _ => r.below(4),
    };
    for line in 0..number {
        out.extend_from_slice(if line == 0 { b"MAIL FROM:<a@x>\r\n" } else { b"RCPT TO:<b@y>\r\n" });
    }
    let start = out.len();
    match r.below(5) {
        0 | 1 => {
            in_any_case(r, &mut out, if number == 0 { "MAIL FROM:<" } else { "RCPT TO:<" });
            out.extend_from_slice(r.pick(FULL).as_bytes());
            fill(r, &mut out, start, FULL_ENDS);
        }
        2 => {
            // Each place of the grammar, and any byte there, or what is left of the ways to end.
            in_any_case(r, &mut out, if number == 0 { "MAIL FROM:<" } else { "RCPT TO:<" });
            out.extend_from_slice(r.pick(PLACES).as_bytes());
            match r.below(4) {
                0 => out.push(r.number() as u8),
                1 | 2 => out.push(r.byte(SPECIAL)),
                _ => {}
            }
        }
        _ => {
            short_line(r, &mut out, number == 0);
            spoil(r, &mut out, start);
        }
    }
    match r.below(6) {
        0 => {
            // The data end inside the line.
            let end = r.from(start, out.len());
            out.truncate(end);
        }
        1 => {}
        2 => out.push(b'\r'),
        _ => out.extend_from_slice(b"\r\nRCPT TO:<b@y>\r\n"),
    }
    out
}

/// About 16,384 bytes.
fn long_envelope(r: &mut Random) -> Vec<u8> {
    let mut out = b"MAIL FROM:<a@x>\r\n".to_vec();
    let size = r.from(16_383, 16_386);
    while out.len() + 2000 < size {
        out.extend_from_slice(b"RCPT TO:<b@y> X=");
        out.resize(out.len() + 900, b'z');
        out.extend_from_slice(b"\r\n");
    }
    out.extend_from_slice(b"RCPT TO:<b@y> X=");
    out.resize(out.len() + 900, b'z');
    out.extend_from_slice(b"\r\n");
    out.extend_from_slice(b"RCPT TO:<b@y> X=");
    out.resize(size - 2, b'z');
    out.extend_from_slice(b"\r\n");
    out
}
