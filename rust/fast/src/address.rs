//! Addresses, words, parameter values and xtext, by a table of what each byte may stand in.
pub const ATOM: u8 = 1;
const LITERAL: u8 = 2;
const QUOTED: u8 = 4;
const XTEXT: u8 = 8;
const VALUE: u8 = 16;
pub const WORD: u8 = 32;
const KEYWORD: u8 = 64;

static CLASS: [u8; 256] = {
    let mut class = [0; 256];
    let mut b = 0;
    while b < 256 {
        let c = b as u8;
        let atext = c.is_ascii_alphanumeric()
            || matches!(c, b'!' | b'#' | b'$' | b'%' | b'&' | b'\'' | b'*' | b'+' | b'-' | b'/' | b'=' | b'?' | b'^')
            || matches!(c, b'_' | b'`' | b'{' | b'|' | b'}' | b'~');
        if atext || c >= 128 {
            class[b] |= ATOM | WORD;
        }
        if c == b'.' {
            class[b] |= WORD;
        }
        if matches!(c, 33..=90 | 94..=126) {
            class[b] |= LITERAL;
        }
        if (matches!(c, 32..=126) && c != b'"' && c != b'\\') || c >= 128 {
            class[b] |= QUOTED;
        }
        if matches!(c, 33..=126) && c != b'=' {
            class[b] |= VALUE;
        }
        if matches!(c, 33..=126) && c != b'+' && c != b'=' {
            class[b] |= XTEXT;
        }
        if c.is_ascii_alphanumeric() || c == b'-' {
            class[b] |= KEYWORD;
        }
        b += 1;
    }
    class
};

#[inline(always)]
fn run(s: &[u8], mut at: usize, class: u8) -> usize {
    while at < s.len() && CLASS[s[at] as usize] & class != 0 {
        at += 1;
    }
    at
}

#[inline(always)]
fn dot_atom(s: &[u8], at: usize) -> Option<usize> {
    let mut end = run(s, at, ATOM);
    if end == at {
        return None;
    }
    while s.get(end) == Some(&b'.') {
        let next = run(s, end + 1, ATOM);
        if next == end + 1 {
            break;
        }
        end = next;
    }
    Some(end)
}

fn quoted_string(s: &[u8], at: usize) -> Option<usize> {
    let mut at = at + 1;
    loop {
        at = run(s, at, QUOTED);
        match s.get(at)? {
            b'"' => return Some(at + 1),
            b'\\' if matches!(s.get(at + 1), Some(32..=126)) => at += 2,
            _ => return None,
        }
    }
}

/// `@` and a domain at `at`; the end.
#[inline(always)]
pub fn at_domain(s: &[u8], at: usize) -> Option<usize> {
    if s.get(at) != Some(&b'@') {
        return None;
    }
    if s.get(at + 1) == Some(&b'[') {
        let end = run(s, at + 2, LITERAL);
        return if s.get(end) == Some(&b']') { Some(end + 1) } else { None };
    }
    dot_atom(s, at + 1)
}

#[inline]
pub fn address(s: &[u8], at: usize) -> Option<usize> {
    let local = if s.get(at) == Some(&b'"') { quoted_string(s, at)? } else { dot_atom(s, at)? };
    at_domain(s, local)
}

/// A quoted string or a run of atext, dots and non-ASCII; the end.
#[inline(always)]
pub fn word(s: &[u8], at: usize) -> Option<usize> {
    if s.get(at) == Some(&b'"') {
        return quoted_string(s, at);
    }
    let end = run(s, at, WORD);
    if end > at {
        Some(end)
    } else {
        None
    }
}

#[inline(always)]
pub fn keyword_end(s: &[u8], at: usize) -> usize {
    run(s, at, KEYWORD)
}

#[inline(always)]
pub fn value_end(s: &[u8], at: usize, non_ascii: bool) -> usize {
    if !non_ascii {
        return run(s, at, VALUE);
    }
    let mut at = at;
    while at < s.len() && (CLASS[s[at] as usize] & VALUE != 0 || s[at] >= 128) {
        at += 1;
    }
    at
}

pub const LINE: usize = 998;

/// The decoded bytes to the front of the room, which has as many bytes as the value.
#[inline]
pub fn decode_xtext(value: &[u8], room: &mut [u8]) -> Option<usize> {
    let (mut len, mut at) = (0, 0);
    while at < value.len() {
        let b = value[at];
        if CLASS[b as usize] & XTEXT != 0 {
            room[len] = b;
            at += 1;
        } else if b == b'+' {
            room[len] = hex_value(*value.get(at + 1)?)? * 16 + hex_value(*value.get(at + 2)?)?;
            at += 3;
        } else {
            return None;
        }
        len += 1;
    }
    Some(len)
}

fn hex_value(digit: u8) -> Option<u8> {
    match digit {
        b'0'..=b'9' => Some(digit - b'0'),
        b'A'..=b'F' => Some(digit - b'A' + 10),
        _ => None,
    }
}
