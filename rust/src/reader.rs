//! The reader of Downgraded fields.
//! Written from request [6] of document 02, and document 01, Header lines and Reading a row back.

use crate::header::is_blank;
use crate::utf8::is_utf8;

#[derive(Clone, Copy, PartialEq, Eq, Debug)]
pub struct ReadAnswer {
    pub number: u32,
    /// Where the field begins, or the header's end.
    pub start: usize,
    /// "the place after it"
    pub next: usize,
    /// Of the text, also where it has no room.
    pub length: usize,
}

pub const TEXT: u32 = 0;
/// "1 field malformed by document 01"
pub const FIELD: u32 = 1;
/// "2 word malformed [..] or of another encoding"
pub const WORD: u32 = 2;
/// "3 other charset"
pub const CHARSET: u32 = 3;
/// "4 a word's bytes not UTF-8"
pub const UTF8: u32 = 4;
/// "5 buffer short"
pub const ROOM: u32 = 5;
pub const NONE: u32 = 6;

/// "Each call takes a place in the header and a buffer and gives the first field begun there or later, as its text or a reason,
/// and the place after it, or none."
pub fn read(header: &[u8], place: usize, buffer: &mut [u8]) -> ReadAnswer {
    let Some((start, next)) = first_field(header, place) else {
        return ReadAnswer { number: NONE, start: header.len(), next: header.len(), length: 0 };
    };
    match field_text(&header[start..next]) {
        Err(number) => ReadAnswer { number, start, next, length: 0 },
        Ok(text) if text.len() > buffer.len() => ReadAnswer { number: ROOM, start, next, length: text.len() },
        Ok(text) => {
            buffer[..text.len()].copy_from_slice(&text);
            ReadAnswer { number: TEXT, start, next, length: text.len() }
        }
    }
}

/// Where the lines of a header begin. [6.1]: "Only CRLF ends a line."
fn line_starts(header: &[u8]) -> Vec<usize> {
    let behind_crlf = (2..header.len()).filter(|&at| header[at - 2..at] == *b"\r\n");
    (0..header.len().min(1)).chain(behind_crlf).collect()
}

/// "A field runs from a line beginning `Downgraded-` (any case) to the next line not begun by space or TAB."
fn first_field(header: &[u8], place: usize) -> Option<(usize, usize)> {
    let starts = line_starts(header);
    let begins_field = |at: usize| header.len() >= at + 11 && header[at..at + 11].eq_ignore_ascii_case(b"Downgraded-");
    let first = starts.iter().position(|&at| at >= place && begins_field(at))?;
    let next = starts[first + 1..].iter().find(|&&at| !is_blank(header[at])).copied();
    Some((starts[first], next.unwrap_or(header.len())))
}

/// The decoded text of a field, or why it is refused: "the lowest that holds".
fn field_text(field: &[u8]) -> Result<Vec<u8>, u32> {
    let value = value(field).ok_or(FIELD)?;
    // "The text of a field is its value with each CRLF before a continuation removed, then without leading spaces and TABs."
    let unfolded: Vec<u8> = value.iter().copied().filter(|b| !b"\r\n".contains(b)).collect();
    let blanks = unfolded.iter().take_while(|&&b| is_blank(b)).count();
    decoded(&unfolded[blanks..])
}

/// What follows the colon of a well-formed field, without the last CRLF. Document 01: "Each line ends in CRLF, has 1 to 998
/// bytes before it, holds no NUL, lone CR or lone LF, and is UTF-8." [6]: "names to 87 bytes here".
fn value(field: &[u8]) -> Option<&[u8]> {
    let body = field.strip_suffix(b"\r\n")?;
    for line in lines(body) {
        let bad = line.is_empty() || line.len() > 998 || line.iter().any(|b| b"\0\r\n".contains(b)) || !is_utf8(line);
        if bad {
            return None;
        }
    }
    let colon = body.iter().position(|&b| b == b':')?;
    let name = &body[..colon];
    let is_name = (1..=87).contains(&name.len()) && name.iter().all(|b| (33..=126).contains(b));
    is_name.then(|| &body[colon + 1..])
}

/// What stands between CRLFs.
fn lines(body: &[u8]) -> Vec<&[u8]> {
    let (mut lines, mut rest) = (Vec::new(), body);
    while let Some(end) = rest.windows(2).position(|two| two == b"\r\n") {
        lines.push(&rest[..end]);
        rest = &rest[end + 2..];
    }
    lines.push(rest);
    lines
}

/// A text is these: "other text stays".
enum Run<'a> {
    White(&'a [u8]),
    Word(&'a [u8]),
    Other(&'a [u8]),
}

/// "A word is a run of 4 bytes or more between white space from `=?` to `?=`". [6.6]: "the text's two ends count as white
/// space".
fn runs(text: &[u8]) -> Vec<Run<'_>> {
    text.chunk_by(|&a, &b| is_blank(a) == is_blank(b))
        .map(|run| match run {
            [b' ' | b'\t', ..] => Run::White(run),
            [b'=', b'?', inside @ .., b'?', b'='] => Run::Word(inside),
            _ => Run::Other(run),
        })
        .collect()
}

fn decoded(text: &[u8]) -> Result<Vec<u8>, u32> {
    let runs = runs(text);
    let mut out = Vec::new();
    let mut lowest = ROOM;
    for (at, run) in runs.iter().enumerate() {
        match run {
            Run::White(white) => {
                // "skips white space between adjacent words"
                let is_word = |at: Option<usize>| matches!(at.and_then(|at| runs.get(at)), Some(Run::Word(_)));
                if !(is_word(at.checked_sub(1)) && is_word(Some(at + 1))) {
                    out.extend_from_slice(white);
                }
            }
            Run::Word(inside) => match decoded_word(inside) {
                Ok(bytes) => out.extend(bytes),
                Err(number) => lowest = lowest.min(number),
            },
            Run::Other(other) => out.extend_from_slice(other),
        }
    }
    if lowest < ROOM {
        return Err(lowest);
    }
    Ok(out)
}

/// "2 word malformed (not charset, encoding and text parted by `?`; Q text a fault in document 01's reading; B text not padded
/// base64 with zero spare bits) or of another encoding, 3 other charset, 4 a word's bytes not UTF-8"
fn decoded_word(inside: &[u8]) -> Result<Vec<u8>, u32> {
    let parts: Vec<&[u8]> = inside.split(|&b| b == b'?').collect();
    let [charset, encoding, text] = parts[..] else { return Err(WORD) };
    let bytes = match encoding {
        b"Q" | b"q" => decoded_q(text),
        b"B" | b"b" => decoded_b(text),
        _ => None,
    };
    let bytes = bytes.ok_or(WORD)?;
    if !charset.eq_ignore_ascii_case(b"UTF-8") {
        return Err(CHARSET);
    }
    if !is_utf8(&bytes) {
        return Err(UTF8);
    }
    Ok(bytes)
}

/// "`_` adds byte 32. `=` with two hex digits in any case adds that byte. [..] Any other byte 33 to 126 except `?` and `=` adds
/// itself. Anything else is a fault"
fn decoded_q(text: &[u8]) -> Option<Vec<u8>> {
    let digit = |b: u8| (b as char).to_digit(16);
    let (mut bytes, mut rest) = (Vec::new(), text);
    loop {
        rest = match rest {
            [] => return Some(bytes),
            [b'=', high, low, behind @ ..] => {
                bytes.push((digit(*high)? * 16 + digit(*low)?) as u8);
                behind
            }
            [b'_', behind @ ..] => {
                bytes.push(32);
                behind
            }
            [b'=' | b'?', ..] => return None,
            [b @ 33..=126, behind @ ..] => {
                bytes.push(*b);
                behind
            }
            _ => return None,
        };
    }
}

/// [6.10]: "groups of four, only the last may end in one or two `=`, spare bits zero"
fn decoded_b(text: &[u8]) -> Option<Vec<u8>> {
    let digit = |b: u8| match b {
        b'A'..=b'Z' => Some(u32::from(b - b'A')),
        b'a'..=b'z' => Some(u32::from(b - b'a') + 26),
        b'0'..=b'9' => Some(u32::from(b - b'0') + 52),
        b'+' => Some(62),
        b'/' => Some(63),
        _ => None,
    };
    if text.len() % 4 != 0 {
        return None;
    }
    let padding = text.iter().rev().take_while(|&&b| b == b'=').count();
    if padding > 2 {
        return None;
    }
    let mut bits = Vec::new();
    for &b in &text[..text.len() - padding] {
        let value = digit(b)?;
        bits.extend((0..6).rev().map(|at| value >> at & 1));
    }
    let spare = bits.len() % 8;
    let (whole, left) = bits.split_at(bits.len() - spare);
    if left.contains(&1) {
        return None;
    }
    Some(whole.chunks(8).map(|byte| byte.iter().fold(0, |value, bit| value * 2 + bit) as u8).collect())
}
