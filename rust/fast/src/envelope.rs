//! The envelope: its lines checked (2, 3, 4, 10, and 6 for ORCPT), what replaces their paths, and the writing.
use crate::address::{address, decode_xtext, keyword_end, value_end, LINE};
use crate::offset;
use crate::out::Out;
use crate::simd::{is_ascii, next_high, V};
use crate::words::row_after_name;
use std::mem::MaybeUninit;

const LINES: usize = 101;

/// A path that its ALT-ADDRESS replaces; places in the envelope.
#[derive(Clone, Copy)]
struct Swap {
    line: u16,
    path: u16,
    path_end: u16,
    parameter: u16,
    value: u16,
    value_end: u16,
}

pub struct Envelope<'a> {
    bytes: &'a [u8],
    lines: usize,
    swaps: [MaybeUninit<Swap>; LINES],
    swapped: usize,
    pub len: usize,
    /// The first line with an ORCPT that carries non-ASCII, and the first such byte of its values.
    pub held: Option<(usize, usize)>,
}

pub struct Refusal {
    pub number: u32,
    pub line: usize,
    pub offset: usize,
}

struct Line {
    path: usize,
    path_end: usize,
    alternative: Option<(usize, usize, usize)>,
    held: Option<usize>,
}

#[inline]
pub fn check(bytes: &[u8], current: bool) -> Result<Envelope<'_>, Refusal> {
    let mut envelope =
        Envelope { bytes, lines: 0, swaps: [MaybeUninit::uninit(); LINES], swapped: 0, len: bytes.len(), held: None };
    let mut start = 0;
    while start < bytes.len() {
        let line = envelope.lines;
        start = match envelope.take_line(start, current) {
            Ok(next) => next,
            Err((number, offset)) => return Err(Refusal { number, line, offset }),
        };
    }
    if envelope.lines < 2 {
        return Err(Refusal { number: 2, line: envelope.lines, offset: bytes.len() });
    }
    Ok(envelope)
}

#[inline(always)]
fn starts_with(s: &[u8], start: &[u8]) -> bool {
    s.starts_with(start) || s.len() >= start.len() && s[..start.len()].eq_ignore_ascii_case(start)
}

/// The parts of a line of UTF-8.
#[inline(always)]
fn line_parts(line: &[u8], number: usize) -> Option<Line> {
    let path = if number == 0 {
        if !starts_with(line, b"MAIL FROM:<") {
            return None;
        }
        11
    } else {
        if !starts_with(line, b"RCPT TO:<") {
            return None;
        }
        9
    };
    let path_end = match address(line, path) {
        Some(end) => end,
        None if number == 0 => path,
        None if starts_with(&line[path..], b"Postmaster") => path + 10,
        None => return None,
    };
    if line.get(path_end) != Some(&b'>') {
        return None;
    }
    let mut parts = Line { path, path_end, alternative: None, held: None };
    let mut at = path_end + 1;
    while at < line.len() {
        at = parameter(line, at, &mut parts)?;
    }
    Some(parts)
}

#[inline(always)]
fn parameter(line: &[u8], space: usize, parts: &mut Line) -> Option<usize> {
    if line[space] != b' ' {
        return None;
    }
    let start = space + 1;
    let end = keyword_end(line, start);
    if end == start || line[start] == b'-' {
        return None;
    }
    let keyword = &line[start..end];
    let alternative = keyword.len() == 11 && keyword.eq_ignore_ascii_case(b"ALT-ADDRESS");
    if line.get(end) != Some(&b'=') {
        return if alternative { None } else { Some(end) };
    }
    let value = end + 1;
    let orcpt = keyword.len() == 5 && keyword.eq_ignore_ascii_case(b"ORCPT");
    let end = value_end(line, value, orcpt);
    if end == value {
        return None;
    }
    if orcpt && parts.held.is_none() {
        let at = next_high(&line[..end], value);
        if at < end {
            parts.held = Some(at);
        }
    }
    if alternative {
        if parts.alternative.is_some() {
            return None;
        }
        parts.alternative = Some((space, value, end));
    }
    Some(end)
}

impl Envelope<'_> {
    #[inline(always)]
    fn take_line(&mut self, start: usize, current: bool) -> Result<usize, (u32, usize)> {
        let (end, ascii) = line_end(self.bytes, start);
        if self.bytes.get(end + 1) != Some(&b'\n') {
            return Err(self.malformed(start));
        }
        let line = &self.bytes[start..end];
        if line.len() > LINE || self.lines == LINES || !ascii && std::str::from_utf8(line).is_err() {
            return Err(self.malformed(start));
        }
        let Some(parts) = line_parts(line, self.lines) else { return Err(self.malformed(start)) };
        let path = &line[parts.path..parts.path_end];
        let ascii = ascii || is_ascii(path);
        match parts.alternative {
            None if !ascii => return Err((3, start + parts.path)),
            None => {}
            Some((_, value, _)) if current => return Err((10, start + value)),
            Some((_, value, _)) if ascii => return Err((4, start + value)),
            Some((parameter, value, value_end)) => {
                let mut room = [0; LINE];
                match decode_xtext(&line[value..value_end], &mut room) {
                    Some(len) if is_ascii(&room[..len]) && address(&room[..len], 0) == Some(len) => {
                        self.len = self.len + len - path.len() - (value_end - parameter);
                    }
                    _ => return Err((4, start + value)),
                }
                self.swaps[self.swapped].write(Swap {
                    line: self.lines as u16,
                    path: (start + parts.path) as u16,
                    path_end: (start + parts.path_end) as u16,
                    parameter: (start + parameter) as u16,
                    value: (start + value) as u16,
                    value_end: (start + value_end) as u16,
                });
                self.swapped += 1;
            }
        }
        if self.held.is_none() {
            self.held = parts.held.map(|at| (self.lines, start + at));
        }
        self.lines += 1;
        Ok(end + 2)
    }

    #[cold]
    fn malformed(&self, start: usize) -> (u32, usize) {
        (
            2,
            start
                + offset::envelope_line(&self.bytes[start..], self.lines, LINE)
                    .expect("a malformed line stops somewhere")
                    .at,
        )
    }

    fn swaps(&self) -> &[Swap] {
        // SAFETY: the first `swapped` are written.
        unsafe { std::slice::from_raw_parts(self.swaps.as_ptr() as *const Swap, self.swapped) }
    }

    pub fn write(&self, out: &mut [u8]) {
        let (mut done, mut at) = (0, 0);
        let mut put = |out: &mut [u8], bytes: &[u8]| {
            out[at..at + bytes.len()].copy_from_slice(bytes);
            at += bytes.len();
            at
        };
        for swap in self.swaps() {
            let mut room = [0; LINE];
            let n = decode_xtext(&self.bytes[swap.value as usize..swap.value_end as usize], &mut room).unwrap_or(0);
            put(out, &self.bytes[done..swap.path as usize]);
            put(out, &room[..n]);
            put(out, &self.bytes[swap.path_end as usize..swap.parameter as usize]);
            done = swap.value_end as usize;
        }
        put(out, &self.bytes[done..]);
    }

    pub fn first_fields(&self, out: &mut Out) {
        for swap in self.swaps() {
            if swap.line == 0 {
                self.old_and_new(out, b"Downgraded-Mail-From", swap);
            } else if self.lines == 2 {
                self.old_and_new(out, b"Downgraded-Rcpt-To", swap);
            } else {
                return;
            }
        }
    }

    fn old_and_new(&self, out: &mut Out, name: &[u8], swap: &Swap) {
        let mut text = [0; 2048];
        let old = &self.bytes[swap.path as usize..swap.path_end as usize];
        let mut at = 1 + old.len() + 2;
        text[0] = b'<';
        text[1..1 + old.len()].copy_from_slice(old);
        text[at - 2..at].copy_from_slice(b" <");
        at += decode_xtext(&self.bytes[swap.value as usize..swap.value_end as usize], &mut text[at..]).unwrap_or(0);
        text[at..at + 2].copy_from_slice(b">>");
        out.copy(name);
        out.put(b":");
        row_after_name(out, name.len(), &text[..at + 2]);
        out.put(b"\r\n");
    }
}

/// The first CR from `start` on, or the end, and whether all before it is ASCII.
#[inline(always)]
fn line_end(s: &[u8], start: usize) -> (usize, bool) {
    let (mut at, mut high) = (start, 0);
    while at + 16 <= s.len() {
        let v = V::at(s, at);
        let cr = v.is(b'\r');
        if cr != 0 {
            let below = (1 << cr.trailing_zeros()) - 1;
            return (at + cr.trailing_zeros() as usize, (high | (v.high() & below)) == 0);
        }
        high |= v.high();
        at += 16;
    }
    while at < s.len() && s[at] != b'\r' {
        high |= s[at] as u32 & 128;
        at += 1;
    }
    (at, high == 0)
}
