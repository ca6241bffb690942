//! Made-up headers for the reader of request [6]: words of all kinds in Downgraded fields, and lines that are none.

use super::{blanks, character, damage, fold, in_any_case, input, random_bytes, setting, Random, SPECIAL};
use crate::words::{base64_size, write_base64};
use crate::{downgrade, downgrade_mailbox};

const CHARSETS: &[&str] =
    &["UTF-8", "UTF-8", "UTF-8", "UTF-8", "UTF-8", "utf-8", "Utf-8", "ISO-8859-1", "", "é", "UTF8", "UTF-88"];
const ENCODINGS: &[&str] = &["Q", "Q", "Q", "B", "B", "B", "q", "b", "", "X", "QB", "é"];

/// Near misses of words, and what holds a field.
const NEAR: &[&str] = &[
    "=?", "?=", "=?=", "=??=", "=???=", "=????=", "=?UTF-8?=", "=?UTF-8?Q?=", "=?UTF-8?Q??=", "=?UTF-8?B??=",
    "=?UTF-8?Q?a?b?=", "=?UTF-8?Q?a?==?UTF-8?Q?b?=", "(=?UTF-8?Q?a?=)", "=?UTF-8?Q?a?=,", "=?UTF-8?Q?=?=",
    "=?UTF-8?Q?=4?=", "=?UTF-8?Q?=G4?=", "=?UTF-8?B?YQ?=", "=?UTF-8?B?YR==?=", "=?UTF-8?B?YWJ=?=", "=?UTF-8?B?====?=",
    "=?UTF-8?B?YQ==YQ==?=", "=?UTF-8?Q?=FF?=", "=?UTF-8?Q?=C3?=", "=?UTF-8?B?/w==?=", "=?UTF-8?Q?=ED=A0=80?=",
    "=?UTF-8?Q?a", "b?=", "=?UTF-8?Q", "é", "a", "=", "?",
];

/// The text of a word: mostly good for its encoding.
fn word_text(r: &mut Random, out: &mut Vec<u8>, b: bool) {
    let mut text = Vec::new();
    for _ in 0..r.below(12) {
        match r.below(5) {
            0 | 1 => character(r, &mut text),
            2 => text.push(r.byte(b" _=?\r\n\0\t\x7f")),
            _ => text.push(r.from(33, 126) as u8),
        }
    }
    if r.once_in(20) {
        text.push(r.number() as u8);
    }
    if b {
        let start = out.len();
        out.resize(start + base64_size(text.len()), 0);
        write_base64(&text, &mut out[start..]);
    } else {
        let lower = r.once_in(3);
        for b in text {
            match b {
                b' ' if r.once_in(2) => out.push(b'_'),
                33..=126 if !b"_=?".contains(&b) && !r.once_in(4) => out.push(b),
                _ if lower => out.extend_from_slice(format!("={b:02x}").as_bytes()),
                _ => out.extend_from_slice(format!("={b:02X}").as_bytes()),
            }
        }
    }
}

fn word(r: &mut Random, out: &mut Vec<u8>) {
    if r.once_in(20) {
        return out.extend_from_slice(r.pick(NEAR).as_bytes());
    }
    let start = out.len();
    out.extend_from_slice(b"=?");
    let usual = !r.once_in(10);
    out.extend_from_slice(if usual { CHARSETS[r.below(7)] } else { r.pick(CHARSETS) }.as_bytes());
    out.push(b'?');
    let encoding = if usual { ENCODINGS[r.below(8)] } else { r.pick(ENCODINGS) };
    out.extend_from_slice(encoding.as_bytes());
    out.push(b'?');
    word_text(r, out, encoding.eq_ignore_ascii_case("B"));
    out.extend_from_slice(b"?=");
    // One byte of it changed, added or taken out.
    if r.once_in(25) {
        let at = r.from(start, out.len() - 1);
        match r.below(3) {
            0 => out[at] = r.byte(b"=?_ABab9 +/\x01\x80"),
            1 => out.insert(at, r.byte(b"=?_ABab9 +/\t")),
            _ => {
                out.remove(at);
            }
        }
    }
}

fn value(r: &mut Random) -> Vec<u8> {
    let mut value = Vec::new();
    blanks(r, &mut value, 0);
    for _ in 0..r.below(7) {
        if r.once_in(4) {
            for _ in 0..r.from(1, 5) {
                match r.below(6) {
                    0 => character(r, &mut value),
                    1 => value.push(r.byte(b"=?(),\"\\\x01\x7f")),
                    _ => value.push(r.byte(b"abcxyz019")),
                }
            }
        } else {
            word(r, &mut value);
        }
        let least = !r.once_in(12) as usize;
        blanks(r, &mut value, least);
    }
    while value.last() == Some(&b' ') && r.once_in(2) {
        value.pop();
    }
    value
}

fn field(r: &mut Random, out: &mut Vec<u8>) {
    let start = out.len();
    in_any_case(r, out, "Downgraded-");
    match r.below(12) {
        0 => {
            let len = r.from(74, 78);
            out.resize(out.len() + len, b'n');
        }
        1 => {}
        _ => {
            out.extend_from_slice(r.pick(&["To", "From", "X-Note", "Mail-From", "Rcpt-To", "Downgraded-X"]).as_bytes())
        }
    }
    if !r.once_in(40) {
        out.push(b':');
    }
    let value = value(r);
    let often = [0, 0, 2, 4][r.below(4)];
    let folded = fold(r, &value, out.len() - start, often);
    out.extend_from_slice(&folded);
    if r.once_in(60) {
        let size = out.len() + r.from(980, 1000);
        out.resize(size, b'x');
    }
    if !r.once_in(40) {
        out.extend_from_slice(b"\r\n");
    } else {
        out.extend_from_slice(r.pick(&["", "\r", "\n", "\r\r\n", "\0\r\n", "\r\n\r\n", "\r\n \r\n"]).as_bytes());
    }
}

/// A header of any program.
fn foreign(r: &mut Random) -> Vec<u8> {
    let mut out = Vec::new();
    for _ in 0..r.below(6) {
        if r.once_in(3) {
            let lines: &[&[u8]] = &[
                b"X: y\r\n", b" Downgraded-A: a\r\n", b"\r\n", b"Downgraded\r\n", b"X\xff\0\r\n", b"X: y\n", b"X: y\r",
                b"\n", b"\tmore\r\n", b"Subject: =?UTF-8?Q?a?=\r\n", b"Downgraded-\r\n", b"downgraded-X",
                b"Downgraded-A b: c\r\n",
            ];
            out.extend_from_slice(r.pick(lines));
        } else {
            field(r, &mut out);
        }
    }
    out
}

/// What one of the calls wrote; none where it refused.
fn ours(r: &mut Random) -> Option<Vec<u8>> {
    let setting = setting(r);
    let (envelope, header) = input(r, setting);
    let mut out = vec![0; 80 * header.len() + 20_600];
    let len = if r.once_in(3) {
        downgrade_mailbox(&header, &mut out).length
    } else {
        downgrade(setting, &envelope, &header, &mut [0; 17_000], &mut out).header_len
    };
    out.truncate(len);
    (len > 0).then_some(out)
}

/// Our own output, the same damaged, a foreign header, damaged too, or random bytes.
pub fn header(r: &mut Random) -> Vec<u8> {
    let mut out = match r.below(20) {
        0 => random_bytes(r),
        1..=7 => loop {
            if let Some(out) = ours(r) {
                break out;
            }
        },
        _ => foreign(r),
    };
    if r.once_in(3) {
        if r.once_in(4) && !out.is_empty() {
            let at = r.below(out.len());
            out[at] = r.byte(SPECIAL);
        } else if r.once_in(2) {
            damage(r, &mut out);
        }
    }
    out
}
