//! Content-Type and Content-Disposition: parameter values that are not ASCII, by RFC 2231.
use crate::comment::{self, comment_end, string_end};
use crate::out::Out;
use crate::simd::is_ascii;

const TOKEN: u8 = 1;
const WIDE: u8 = 2;
const WHITE: u8 = 4;
const STOP: u8 = 8;

static CLASS: [u8; 256] = {
    let mut class = [0; 256];
    let mut b = 0;
    while b < 256 {
        class[b] = match b as u8 {
            b'(' | b'"' | b';' => STOP,
            b' ' | b'\t' | b'\r' | b'\n' => WHITE,
            b')' | b'<' | b'>' | b'@' | b',' | b':' | b'\\' | b'/' | b'[' | b']' | b'?' | b'=' => 0,
            33..=126 => TOKEN,
            128.. => WIDE,
            _ => 0,
        };
        b += 1;
    }
    class
};

const fn is_bare(b: u8) -> bool {
    CLASS[b as usize] & TOKEN != 0 && !matches!(b, b'*' | b'\'' | b'%')
}

/// How each byte is spelled; the fourth byte fills up.
static SPELLING: [[u8; 4]; 256] = {
    let digits = b"0123456789ABCDEF";
    let mut spelling = [[0; 4]; 256];
    let mut b = 0;
    while b < 256 {
        spelling[b] = if is_bare(b as u8) { [b as u8, 0, 0, 0] } else { [b'%', digits[b >> 4], digits[b & 15], 0] };
        b += 1;
    }
    spelling
};

/// How many characters each byte takes.
static SIZE: [u8; 256] = {
    let mut size = [3; 256];
    let mut b = 0;
    while b < 256 {
        if is_bare(b as u8) {
            size[b] = 1;
        }
        b += 1;
    }
    size
};

#[derive(Clone, Copy, PartialEq, Eq)]
enum What {
    Comment,
    Ascii,
    Converted,
}

#[inline(always)]
fn run(s: &[u8], mut at: usize, class: u8) -> usize {
    while at < s.len() && CLASS[s[at] as usize] & class != 0 {
        at += 1;
    }
    at
}

/// Its comments and parameters: what, where it starts, where its `=` stands, where it ends. False where `each` says so.
#[inline(always)]
fn parts(value: &[u8], mut each: impl FnMut(What, usize, usize, usize) -> bool) -> bool {
    let (mut at, mut comments) = (0, true);
    'next: loop {
        while at < value.len() && CLASS[value[at] as usize] & STOP == 0 {
            at += 1;
        }
        if at >= value.len() {
            return true;
        }
        match value[at] {
            b'"' => at = string_end(value, at),
            b'(' if comments => match comment_end(value, at) {
                Some(end) => {
                    if !each(What::Comment, at, at, end) {
                        return false;
                    }
                    at = end;
                }
                None => {
                    comments = false;
                    at += 1;
                }
            },
            b';' => {
                // White space and comments up to what may be a parameter.
                at = run(value, at + 1, WHITE);
                while comments && value.get(at) == Some(&b'(') {
                    match comment_end(value, at) {
                        Some(end) => {
                            if !each(What::Comment, at, at, end) {
                                return false;
                            }
                            at = run(value, end, WHITE);
                        }
                        None => {
                            comments = false;
                            at += 1;
                            continue 'next;
                        }
                    }
                }
                let Some((equals, end)) = parameter(value, at, comments) else { continue };
                let what = if is_ascii(&value[equals..end]) { What::Ascii } else { What::Converted };
                if !each(what, at, equals, end) {
                    return false;
                }
                at = end;
            }
            _ => at += 1,
        }
    }
}

#[inline(always)]
fn parameter(value: &[u8], at: usize, comments: bool) -> Option<(usize, usize)> {
    let equals = run(value, at, TOKEN);
    if equals == at || value.get(equals) != Some(&b'=') {
        return None;
    }
    let start = equals + 1;
    let end = if value.get(start) == Some(&b'"') {
        let end = string_end(value, start);
        if !closed(&value[start..end]) {
            return None;
        }
        end
    } else {
        run(value, start, TOKEN | WIDE)
    };
    let followed = match value.get(end) {
        None | Some(b';') => true,
        Some(b'(') => comments && comment_end(value, end).is_some(),
        Some(&b) => CLASS[b as usize] & WHITE != 0,
    };
    (end > start && followed).then_some((equals, end))
}

/// A string that may run to the end of the field has a quote at its end that no backslash escapes.
fn closed(string: &[u8]) -> bool {
    let [_, inside @ .., b'"'] = string else { return false };
    let mut escaped = false;
    for &b in inside {
        // A backslash before a fold escapes the blank behind it.
        if b != b'\r' && b != b'\n' {
            escaped = b == b'\\' && !escaped;
        }
    }
    !escaped
}

/// The value behind a `=` without quoting, escapes and folds.
#[inline(always)]
fn with_text<R>(value: &[u8], then: impl FnOnce(&[u8]) -> R) -> R {
    let [b'"', inside @ .., b'"'] = value else { return then(value) };
    if !inside.iter().any(|&b| b == b'\\' || b == b'\r') {
        return then(inside);
    }
    if inside.len() <= 1024 {
        let mut text = [0; 1024];
        let len = make_text(inside, &mut text);
        return then(&text[..len]);
    }
    let mut text = vec![0; inside.len()];
    let len = make_text(inside, &mut text);
    then(&text[..len])
}

fn make_text(inside: &[u8], text: &mut [u8]) -> usize {
    let (mut len, mut escaped) = (0, false);
    for &b in inside {
        if b == b'\r' || b == b'\n' {
            continue;
        }
        if b == b'\\' && !escaped {
            escaped = true;
            continue;
        }
        escaped = false;
        text[len] = b;
        len += 1;
    }
    len
}

fn size(text: &[u8]) -> usize {
    text.iter().map(|&b| SIZE[b as usize] as usize).sum()
}

/// Names of at most so many bytes leave room for every character in every part.
const SHORT: usize = 51;

/// Whether some part cannot take the next character.
#[cold]
fn no_room(name_len: usize, text: &[u8]) -> bool {
    if size(text) + name_len <= 65 {
        return false;
    }
    let (mut at, mut number, mut limit, mut digits) = (0, 0, 10, 1);
    while at < text.len() {
        let used = name_len + if number == 0 { 13 } else { 5 + digits };
        let start = at;
        at += take(&text[at..], 76usize.saturating_sub(used));
        if at == start {
            return true;
        }
        number += 1;
        if number == limit {
            limit *= 10;
            digits += 1;
        }
    }
    false
}

/// How many bytes of the text, in whole characters, a room holds.
fn take(text: &[u8], room: usize) -> usize {
    let (mut at, mut left) = (0, room);
    while at < text.len() {
        let len = if text[at] < 128 { 1 } else { text[at].leading_ones() as usize };
        let need = if len == 1 { SIZE[text[at] as usize] as usize } else { 3 * len };
        if need > left {
            break;
        }
        left -= need;
        at += len;
    }
    at
}

pub fn is_held(value: &[u8]) -> bool {
    let mut names = [(0u16, 0u16); 16];
    let (mut count, mut done, mut elsewhere) = (0, 0, false);
    let good = parts(value, |what, start, equals, end| {
        elsewhere |= !is_ascii(&value[done..start]);
        done = end;
        if what == What::Comment {
            return true;
        }
        let name = &value[start..equals];
        if name.contains(&b'*') {
            return false;
        }
        if count < names.len() {
            let same = |n: &(u16, u16)| value[n.0 as usize..n.1 as usize].eq_ignore_ascii_case(name);
            if names[..count].iter().any(same) {
                return false;
            }
            names[count] = (start as u16, equals as u16);
        }
        count += 1;
        !(what == What::Converted
            && name.len() > SHORT
            && with_text(&value[equals + 1..end], |text| no_room(name.len(), text)))
    });
    !good || elsewhere || !is_ascii(&value[done..]) || (count > names.len() && shared(value))
}

/// The same for many parameters.
#[cold]
fn shared(value: &[u8]) -> bool {
    let mut names = Vec::new();
    parts(value, |what, start, equals, _| {
        if what != What::Comment {
            names.push(value[start..equals].to_ascii_lowercase());
        }
        true
    });
    names.sort_unstable();
    names.windows(2).any(|two| two[0] == two[1])
}

#[inline(always)]
fn trimmed_end(s: &[u8]) -> &[u8] {
    let mut s = s;
    while let [rest @ .., b' ' | b'\t' | b'\r' | b'\n'] = s {
        s = rest;
    }
    s
}

/// A value that is not held.
pub fn write_value(out: &mut Out, value: &[u8]) {
    let (mut done, mut new_line) = (0, false);
    parts(value, |what, start, equals, end| {
        if what == What::Ascii {
            return true;
        }
        let before = if what == What::Converted { trimmed_end(&value[done..start]) } else { &value[done..start] };
        // What follows a converted piece, if anything, starts a new line; a converted piece begins its own.
        if new_line && (!before.is_empty() || what == What::Comment) {
            out.put(b"\r\n ");
        }
        new_line = false;
        out.copy(before);
        if what == What::Comment {
            comment::write_comment(out, &value[start..end]);
            done = end;
            return true;
        }
        with_text(&value[equals + 1..end], |text| write_converted(out, &value[start..equals], text));
        done = run(value, end, WHITE);
        if value.get(done) == Some(&b';') {
            out.put(b";");
            done = run(value, done + 1, WHITE);
        }
        new_line = true;
        true
    });
    if done < value.len() {
        if new_line {
            out.put(b"\r\n ");
        }
        out.copy(&value[done..]);
    }
}

struct Line {
    bytes: [u8; 96],
    at: usize,
}

impl Line {
    #[inline(always)]
    fn put(&mut self, bytes: &[u8]) {
        self.bytes[self.at..self.at + bytes.len()].copy_from_slice(bytes);
        self.at += bytes.len();
    }

    #[inline(always)]
    fn spell(&mut self, text: &[u8]) {
        for &b in text {
            self.bytes[self.at..self.at + 4].copy_from_slice(&SPELLING[b as usize]);
            self.at += SIZE[b as usize] as usize;
        }
    }
}

/// The pieces; there is room for each character.
#[inline(never)]
fn write_converted(out: &mut Out, name: &[u8], text: &[u8]) {
    let mut line = Line { bytes: [0; 96], at: 0 };
    line.put(b"\r\n ");
    line.put(name);
    let behind_name = line.at;
    if name.len() < 65 && text.len() + name.len() <= 65 && size(text) + name.len() <= 65 {
        line.put(b"*=UTF-8''");
        line.spell(text);
        return out.copy(&line.bytes[..line.at]);
    }
    let (mut rest, mut number) = (text, 0usize);
    loop {
        line.at = behind_name;
        line.put(b"*");
        let mut digits = [0; 5];
        let (mut first, mut n) = (4, number);
        digits[4] = b'0' + (n % 10) as u8;
        while n > 9 {
            n /= 10;
            first -= 1;
            digits[first] = b'0' + (n % 10) as u8;
        }
        line.put(&digits[first..]);
        line.put(b"*=");
        if number == 0 {
            line.put(b"UTF-8''");
        }
        // Of the 76 the line break is none, the `;` is.
        let (held, behind) = rest.split_at(take(rest, 77 - line.at));
        line.spell(held);
        rest = behind;
        if rest.is_empty() {
            return out.copy(&line.bytes[..line.at]);
        }
        line.put(b";");
        out.copy(&line.bytes[..line.at]);
        number += 1;
    }
}
