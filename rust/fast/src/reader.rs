//! The reader of Downgraded fields: one pass over the lines, one over the text.
use crate::header::is_blank;
use crate::simd::{next_cr, next_high};

#[derive(Clone, Copy, PartialEq, Eq, Debug)]
pub struct ReadAnswer {
    pub number: u32,
    pub start: usize,
    pub next: usize,
    pub length: usize,
}

/// The place behind the next CRLF, or the end.
#[inline(always)]
fn next_line(header: &[u8], at: usize) -> usize {
    let mut at = at;
    loop {
        at = next_cr(header, at);
        if at >= header.len() {
            return header.len();
        }
        if header.get(at + 1) == Some(&b'\n') {
            return at + 2;
        }
        at += 1;
    }
}

pub fn read(header: &[u8], place: usize, buffer: &mut [u8]) -> ReadAnswer {
    let none = ReadAnswer { number: 6, start: header.len(), next: header.len(), length: 0 };
    if place >= header.len() {
        return none;
    }
    // The first line that begins at the place or later: behind a CRLF that ends there or later.
    let mut start = if place == 0 { 0 } else { next_line(header, place.saturating_sub(2)) };
    loop {
        if start >= header.len() {
            return none;
        }
        if header.len() - start >= 11 && header[start..start + 11].eq_ignore_ascii_case(b"Downgraded-") {
            break;
        }
        start = next_line(header, start);
    }
    let mut next = next_line(header, start);
    while next < header.len() && is_blank(header[next]) {
        next = next_line(header, next);
    }
    let (number, length) = match read_field(&header[start..next], buffer) {
        Ok(length) if length > buffer.len() => (5, length),
        Ok(length) => (0, length),
        Err(number) => (number, 0),
    };
    ReadAnswer { number, start, next, length }
}

/// The length of the text, written where it fits.
fn read_field(field: &[u8], buffer: &mut [u8]) -> Result<usize, u32> {
    let value = value(field).ok_or(1u32)?;
    if next_cr(value, 0) == value.len() {
        return read_text(value, buffer);
    }
    let mut text = Vec::with_capacity(value.len());
    let mut rest = value;
    loop {
        let end = next_cr(rest, 0);
        text.extend_from_slice(&rest[..end]);
        if end == rest.len() {
            break;
        }
        rest = &rest[end + 2..];
    }
    read_text(&text, buffer)
}

/// What follows the colon of a well-formed field, without the last CRLF.
fn value(field: &[u8]) -> Option<&[u8]> {
    let body = field.strip_suffix(b"\r\n")?;
    let mut start = 0;
    while start <= body.len() {
        let end = next_cr(body, start);
        if end == start || end - start > 998 || (end < body.len() && body.get(end + 1) != Some(&b'\n')) {
            return None;
        }
        if body[start..end].iter().fold(false, |bad, &b| bad | (b == 0) | (b == b'\n')) {
            return None;
        }
        if next_high(&body[start..end], 0) < end - start && std::str::from_utf8(&body[start..end]).is_err() {
            return None;
        }
        start = end + 2;
    }
    let mut colon = 11;
    while colon < body.len() && colon <= 87 && body[colon] != b':' {
        if !(33..=126).contains(&body[colon]) {
            return None;
        }
        colon += 1;
    }
    (colon <= 87 && body.get(colon) == Some(&b':')).then(|| &body[colon + 1..])
}

/// A short buffer is written to only where all of the text fits; so the text is made beside where it might not.
fn read_text(text: &[u8], buffer: &mut [u8]) -> Result<usize, u32> {
    let mut text = text;
    while let [b' ' | b'\t', rest @ ..] = text {
        text = rest;
    }
    let mut scratch = Vec::with_capacity(text.len());
    decode(text, &mut scratch)?;
    if scratch.len() <= buffer.len() {
        buffer[..scratch.len()].copy_from_slice(&scratch);
    }
    Ok(scratch.len())
}

fn decode(text: &[u8], out: &mut Vec<u8>) -> Result<(), u32> {
    let (mut at, mut lowest) = (0, 5);
    // Where the white space before the next run goes if that is a word.
    let mut after_word = None;
    while at < text.len() {
        let start = at;
        while at < text.len() && !is_blank(text[at]) {
            at += 1;
        }
        let run = &text[start..at];
        if let [b'=', b'?', inside @ .., b'?', b'='] = run {
            if let Some(len) = after_word {
                out.truncate(len);
            }
            if let Err(number) = decode_word(inside, out) {
                lowest = lowest.min(number);
            }
            after_word = Some(out.len());
        } else {
            out.extend_from_slice(run);
            after_word = None;
        }
        let white = at;
        while at < text.len() && is_blank(text[at]) {
            at += 1;
        }
        out.extend_from_slice(&text[white..at]);
    }
    if lowest < 5 {
        return Err(lowest);
    }
    Ok(())
}

fn decode_word(inside: &[u8], out: &mut Vec<u8>) -> Result<(), u32> {
    let first = inside.iter().position(|&b| b == b'?').ok_or(2u32)?;
    let (charset, rest) = (&inside[..first], &inside[first + 1..]);
    let [encoding, b'?', text @ ..] = rest else { return Err(2) };
    let start = out.len();
    let good = match encoding {
        b'Q' | b'q' => decode_q(text, out),
        b'B' | b'b' => decode_b(text, out),
        _ => false,
    };
    if !good {
        return Err(2);
    }
    if !charset.eq_ignore_ascii_case(b"UTF-8") {
        return Err(3);
    }
    std::str::from_utf8(&out[start..]).map(|_| ()).map_err(|_| 4)
}

/// 0 to 15 for hex digits in any case, else 255.
static HEX: [u8; 256] = {
    let mut hex = [255; 256];
    let mut n = 0;
    while n < 16 {
        hex[b"0123456789ABCDEF"[n] as usize] = n as u8;
        hex[b"0123456789abcdef"[n] as usize] = n as u8;
        n += 1;
    }
    hex
};

/// What a byte of a Q word stands for; 0 where it is `=` or a fault.
static PLAIN: [u8; 256] = {
    let mut plain = [0; 256];
    let mut b = 33;
    while b < 127 {
        plain[b] = b as u8;
        b += 1;
    }
    plain[b'=' as usize] = 0;
    plain[b'?' as usize] = 0;
    plain[b'_' as usize] = b' ';
    plain
};

fn decode_q(text: &[u8], out: &mut Vec<u8>) -> bool {
    let mut at = 0;
    while at < text.len() {
        let plain = PLAIN[text[at] as usize];
        if plain != 0 {
            out.push(plain);
            at += 1;
            continue;
        }
        let [b'=', high, low, ..] = text[at..] else { return false };
        let (high, low) = (HEX[high as usize], HEX[low as usize]);
        if (high | low) > 15 {
            return false;
        }
        out.push(high << 4 | low);
        at += 3;
    }
    true
}

/// 0 to 63 for base64 digits, else 255.
static SIX: [u8; 256] = {
    let mut six = [255; 256];
    let mut n = 0;
    while n < 64 {
        six[b"ABCDEFGHIJKLMNOPQRSTUVWXYZabcdefghijklmnopqrstuvwxyz0123456789+/"[n] as usize] = n as u8;
        n += 1;
    }
    six
};

fn decode_b(text: &[u8], out: &mut Vec<u8>) -> bool {
    if text.len() % 4 != 0 {
        return false;
    }
    let padding = match text {
        [.., b'=', b'='] => 2,
        [.., b'='] => 1,
        _ => 0,
    };
    let digits = &text[..text.len() - padding];
    let mut fours = digits.chunks_exact(4);
    for four in fours.by_ref() {
        let [a, b, c, d] = [four[0], four[1], four[2], four[3]].map(|b| SIX[b as usize] as u32);
        if (a | b | c | d) > 63 {
            return false;
        }
        let bits = a << 18 | b << 12 | c << 6 | d;
        out.extend_from_slice(&bits.to_be_bytes()[1..]);
    }
    match *fours.remainder() {
        [] => true,
        [a, b] => {
            let (a, b) = (SIX[a as usize], SIX[b as usize]);
            out.push(a << 2 | b >> 4);
            (a | b) < 64 && b & 15 == 0
        }
        [a, b, c] => {
            let (a, b, c) = (SIX[a as usize], SIX[b as usize], SIX[c as usize]);
            out.push(a << 2 | b >> 4);
            out.push(b << 4 | c >> 2);
            (a | b | c) < 64 && c & 3 == 0
        }
        _ => false,
    }
}
