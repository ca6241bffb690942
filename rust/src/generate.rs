//! Made-up envelopes and headers: from the grammar, near misses of each rule, damaged ones, and random bytes.

mod address_list;
mod envelope;
mod header;
mod parameter;
pub mod reader;

pub use envelope::{envelope, envelope_pair};
pub use header::header;

use address_list::{address_list, changed_list, comment, comments_of_a_list, tokens_in_any_order, Faults};
use envelope::malformed_envelope;
use header::{end_field, fold, malformed_header};

/// splitmix64.
pub struct Random {
    state: u64,
}

impl Random {
    pub fn new(seed: u64) -> Random {
        Random { state: seed }
    }

    pub fn number(&mut self) -> u64 {
        self.state = self.state.wrapping_add(0x9E37_79B9_7F4A_7C15);
        let mut z = self.state;
        z = (z ^ (z >> 30)).wrapping_mul(0xBF58_476D_1CE4_E5B9);
        z = (z ^ (z >> 27)).wrapping_mul(0x94D0_49BB_1331_11EB);
        z ^ (z >> 31)
    }

    /// 0 to `limit` - 1.
    pub fn below(&mut self, limit: usize) -> usize {
        (((self.number() >> 32) * limit as u64) >> 32) as usize
    }

    pub fn from(&mut self, least: usize, most: usize) -> usize {
        least + self.below(most - least + 1)
    }

    /// True once in `n`.
    pub fn once_in(&mut self, n: usize) -> bool {
        self.below(n) == 0
    }

    pub fn pick<'a, T: ?Sized>(&mut self, from: &[&'a T]) -> &'a T {
        from[self.below(from.len())]
    }

    pub fn byte(&mut self, from: &[u8]) -> u8 {
        from[self.below(from.len())]
    }
}

const ATEXT: &[u8] = b"abcdefghijklmnopqrstuvwxyzABCDXYZ0123456789!#$%&'*+-/=?^_`{|}~";

const SPECIAL: &[u8] =
    b"\r\n\0\t ,:;<>@\"\\.()[]=+-_?~\x01\x0b\x0c\x1f\x7f\x80\xbf\xc0\xc1\xc2\xc3\xa9\xe0\xed\xef\xf0\xf4\xf5\xff";

const CHARACTERS: &[&str] = &[
    "é", "ß", "\u{80}", "\u{7ff}", "α", "ω", "\u{800}", "€", "漢", "字", "\u{d7ff}", "\u{e000}", "\u{ffff}",
    "\u{10000}", "😀", "\u{10ffff}",
];

fn in_any_case(r: &mut Random, out: &mut Vec<u8>, text: &str) {
    let way = r.below(4);
    for b in text.bytes() {
        out.push(match way {
            0 => b,
            1 => b.to_ascii_lowercase(),
            2 => b.to_ascii_uppercase(),
            _ if r.once_in(2) => b ^ if b.is_ascii_alphabetic() { 32 } else { 0 },
            _ => b,
        });
    }
}

fn character(r: &mut Random, out: &mut Vec<u8>) {
    out.extend_from_slice(r.pick(CHARACTERS).as_bytes());
}

/// A length that is mostly small, and now and then near a limit.
fn length(r: &mut Random, limit: usize) -> usize {
    match r.below(60) {
        0 => r.from(limit - 2, limit + 1),
        1 => r.from(1, 200),
        2..=6 => r.from(1, 40),
        _ => r.from(1, 6),
    }
}

/// One atom; with `non_ascii` also other characters.
fn atom(r: &mut Random, out: &mut Vec<u8>, len: usize, non_ascii: bool) {
    let end = out.len() + len;
    while out.len() < end {
        if non_ascii && r.once_in(3) {
            character(r, out);
        } else {
            out.push(r.byte(ATEXT));
        }
    }
}

fn dot_atom(r: &mut Random, out: &mut Vec<u8>, len: usize, non_ascii: bool) {
    atom(r, out, len, non_ascii);
    while r.once_in(3) {
        out.push(b'.');
        let len = r.from(1, 4);
        atom(r, out, len, non_ascii);
    }
}

fn quoted_string(r: &mut Random, out: &mut Vec<u8>, len: usize, non_ascii: bool) {
    let end = out.len() + len;
    out.push(b'"');
    while out.len() + 1 < end {
        match r.below(8) {
            0 if out.len() + 2 < end => {
                out.push(b'\\');
                out.push(r.from(32, 126) as u8);
            }
            1 | 2 if non_ascii => character(r, out),
            3 => out.push(r.byte(b" ,:;<>@.()[]")),
            _ => {
                let b = r.from(32, 126) as u8;
                out.push(if b == b'"' || b == b'\\' { b' ' } else { b });
            }
        }
    }
    out.push(b'"');
}

/// An address of about `limit` bytes at most; now and then one of just about that length.
fn address(r: &mut Random, out: &mut Vec<u8>, limit: usize, non_ascii: bool) {
    let start = out.len();
    let (local, domain) = match (non_ascii, r.below(3)) {
        (false, _) => (false, false),
        (true, 0) => (true, true),
        (true, 1) => (true, false),
        (true, _) => (false, true),
    };
    let whole = length(r, limit);
    let mut tail = Vec::new();
    tail.push(b'@');
    let short = r.from(1, 8);
    if !domain && r.once_in(5) {
        tail.push(b'[');
        for _ in 0..r.below(6) {
            tail.push(r.byte(b"!09AZ.:<>@,;()\"Z^az~"));
        }
        tail.push(b']');
    } else {
        dot_atom(r, &mut tail, short, domain);
    }
    let len = whole.saturating_sub(tail.len()).max(1);
    if r.once_in(5) {
        quoted_string(r, out, len.max(2), local);
    } else if len > 8 {
        atom(r, out, len, local);
    } else {
        dot_atom(r, out, len, local);
    }
    out.extend_from_slice(&tail);
    // A domain that drew no other character still needs one.
    if non_ascii && out[start..].is_ascii() {
        if tail.ends_with(b"]") {
            let at = out.len() - tail.len();
            let inside = out[at - 1] == b'"';
            out.splice(at - inside as usize..at - inside as usize, "é".bytes());
        } else {
            character(r, out);
        }
    }
}

/// Fills the line that begins at `start` up to about 998 bytes, and then a few parts more.
fn fill(r: &mut Random, out: &mut Vec<u8>, start: usize, ends: &[&str]) {
    let end = start + r.from(986, 999);
    let way = r.below(3);
    while out.len() < end {
        if way == 0 || (out.len() + 4 > end && r.once_in(8)) {
            character(r, out);
        } else {
            out.push(b'a');
        }
    }
    for _ in 0..r.below(4) {
        out.extend_from_slice(r.pick(ends).as_bytes());
    }
}

/// One change by which a line may stop being a beginning: a byte, a part of a character, a line end.
fn spoil(r: &mut Random, out: &mut Vec<u8>, start: usize) {
    let at = r.from(start, out.len());
    match r.below(8) {
        0 => out.insert(at, r.number() as u8),
        1 | 2 => out.insert(at, r.byte(SPECIAL)),
        3 => {
            if at < out.len() {
                out[at] = r.byte(SPECIAL);
            }
        }
        4 => {
            if at < out.len() {
                out.remove(at);
            }
        }
        5 => out.truncate(at),
        6 => {
            let part: &[&[u8]] = &[
                b"\xC3", b"\xE2\x82", b"\xF0\x9F\x98", b"\xED\xA0", b"\xE0\x9F", b"\xF4\x90", b"\xF0\x8F", b"\xC3(",
                b"\xC0\x80", b"\x80", b"\xF5",
            ];
            let part = r.pick(part);
            out.splice(at..at, part.iter().copied());
        }
        _ => {
            let part: &[&[u8]] = &[b"\r", b"\n", b"\rx", b"\r\r", b"\n\r", b"\r ", b"\0"];
            let part = r.pick(part);
            // At the end more often than inside.
            let at = if r.once_in(2) { out.len() } else { at };
            out.splice(at..at, part.iter().copied());
        }
    }
}

/// A text of characters of all lengths, in runs.
fn text(r: &mut Random, out: &mut Vec<u8>, len: usize) {
    let end = out.len() + len;
    let mut way = r.below(6);
    while out.len() < end {
        if r.once_in(20) {
            way = r.below(6);
        }
        match way {
            0 => out.push(r.byte(b"abcxyzABC019!*+-/")),
            1 => out.push(r.byte(b" .,@_?=<>()\"\t\x01\x7f")),
            2 => out.extend_from_slice(CHARACTERS[r.below(4)].as_bytes()),
            3 => character(r, out),
            4 => out.push(r.from(32, 126) as u8),
            _ if r.once_in(3) => character(r, out),
            _ if r.once_in(5) => out.push(b' '),
            _ => out.push(r.byte(ATEXT)),
        }
    }
}

/// Blanks that may stand here: mostly one space or none.
fn blanks(r: &mut Random, out: &mut Vec<u8>, least: usize) {
    match r.below(8) {
        0 => {
            for _ in 0..r.from(least, 3) {
                out.push(r.byte(b"  \t"));
            }
        }
        1 | 2 => out.resize(out.len() + least, b' '),
        3 => out.push(b'\t'),
        _ => out.push(b' '),
    }
}

/// One to four changes anywhere.
pub fn damage(r: &mut Random, bytes: &mut Vec<u8>) {
    for _ in 0..r.from(1, 4) {
        if bytes.is_empty() {
            bytes.push(r.byte(SPECIAL));
            continue;
        }
        let at = r.below(bytes.len());
        match r.below(8) {
            0 | 1 => bytes[at] = r.byte(SPECIAL),
            2 | 3 => bytes.insert(at, r.byte(SPECIAL)),
            4 | 5 => {
                bytes.remove(at);
            }
            6 => bytes[at] = r.number() as u8,
            _ if r.once_in(3) => bytes.truncate(at),
            _ => {
                let end = (at + r.from(1, 20)).min(bytes.len());
                let part = bytes[at..end].to_vec();
                let to = r.below(bytes.len() + 1);
                bytes.splice(to..to, part);
            }
        }
    }
}

pub fn random_bytes(r: &mut Random) -> Vec<u8> {
    let len = r.below(120);
    let way = r.below(3);
    (0..len)
        .map(|_| match way {
            0 => r.number() as u8,
            1 => r.byte(SPECIAL),
            _ => r.byte(b"MAIL FROM:<a@x>\r\nRCPT TO:\xc3\xa9 ="),
        })
        .collect()
}

/// From the spool and current by halves; now and then a number that is 0 if it is cut.
pub fn setting(r: &mut Random) -> u64 {
    match r.below(16) {
        0..=7 => 0,
        8 => 1 << r.below(64),
        9 => r.number() << r.below(64) | 1 << 63,
        _ => [1, 2, 255, 256, 1 << 32, 1 << 63, u64::MAX][r.below(7)],
    }
}

/// One message for this setting.
pub fn input(r: &mut Random, setting: u64) -> (Vec<u8>, Vec<u8>) {
    // A plain envelope, so that the header decides: more often where an ALT-ADDRESS is refused.
    let plain = if setting == 0 { 15 } else { 26 };
    let mut e = match r.below(40) {
        0 => random_bytes(r),
        n if n <= plain => b"MAIL FROM:<a@x>\r\nRCPT TO:<b@y>\r\n".to_vec(),
        _ => envelope(r),
    };
    let mut h = if r.once_in(40) { random_bytes(r) } else { header(r) };
    match r.below(10) {
        0 => return (malformed_envelope(r), h),
        1 => {
            h = malformed_header(r);
            // Mostly with an envelope that is not refused before it.
            if !r.once_in(8) {
                e = b"MAIL FROM:<>\r\nRCPT TO:<b@y>\r\n".to_vec();
            }
            return (e, h);
        }
        _ => {}
    }
    match r.below(12) {
        0 => damage(r, &mut e),
        1 | 2 => damage(r, &mut h),
        _ => {}
    }
    (e, h)
}

/// A header alone, for the mailbox's call.
pub fn mailbox_header(r: &mut Random) -> Vec<u8> {
    let mut h = match r.below(40) {
        0 => random_bytes(r),
        1..=4 => return malformed_header(r),
        _ => header(r),
    };
    if r.once_in(8) {
        damage(r, &mut h);
    }
    h
}
