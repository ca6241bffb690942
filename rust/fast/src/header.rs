//! Header lines and fields: the check (5), and the fields whose value is not ASCII with their kinds.
use crate::simd::{next_cr, V};
use std::mem::MaybeUninit;

const LINE: usize = 998;
const NAME: usize = 76;

#[derive(Clone, Copy, PartialEq, Eq, Debug)]
pub enum Kind {
    Address,
    Plain,
    Held,
    HeldOutsideComments,
    Received,
    Parameters,
    Other,
}

/// Names by length; only those of the same length are compared.
pub fn kind(name: &[u8]) -> Kind {
    use Kind::*;
    let known: &[(&str, Kind)] = match name.len() {
        2 => &[("To", Address), ("Cc", Address)],
        3 => &[("Bcc", Address)],
        4 => &[("From", Address), ("Date", HeldOutsideComments)],
        6 => &[("Sender", Address)],
        7 => &[("Subject", Plain)],
        8 => &[("Reply-To", Address), ("Comments", Plain), ("Received", Received), ("Keywords", Held)],
        9 => &[("Resent-To", Address), ("Resent-Cc", Address)],
        10 => &[
            ("Resent-Bcc", Address),
            ("Message-ID", HeldOutsideComments),
            ("References", HeldOutsideComments),
            ("Content-ID", HeldOutsideComments),
        ],
        11 => &[
            ("Resent-From", Address),
            ("Return-Path", Address),
            ("Resent-Date", HeldOutsideComments),
            ("In-Reply-To", HeldOutsideComments),
        ],
        12 => &[("MIME-Version", HeldOutsideComments), ("Content-Type", Parameters)],
        13 => &[("Resent-Sender", Address)],
        15 => &[("Resent-Reply-To", Address), ("Final-Recipient", Held)],
        17 => &[("Resent-Message-ID", HeldOutsideComments)],
        18 => &[("Original-Recipient", Held)],
        19 => &[("Content-Description", Plain), ("Content-Disposition", Parameters)],
        25 => &[("Content-Transfer-Encoding", HeldOutsideComments)],
        27 => &[("Disposition-Notification-To", Address)],
        _ => return Other,
    };
    known.iter().find(|k| name.eq_ignore_ascii_case(k.0.as_bytes())).map_or(Other, |k| k.1)
}

/// A field whose value is not ASCII; places in the header.
#[derive(Clone, Copy)]
pub struct Field {
    start: u16,
    colon: u16,
    end: u16,
    pub folded: bool,
    pub kind: Kind,
}

impl Field {
    pub fn start(&self) -> usize {
        self.start as usize
    }
    pub fn end(&self) -> usize {
        self.end as usize
    }
    pub fn name<'a>(&self, header: &'a [u8]) -> &'a [u8] {
        &header[self.start as usize..self.colon as usize]
    }
    /// What follows the colon, without the last CRLF.
    pub fn value<'a>(&self, header: &'a [u8]) -> &'a [u8] {
        &header[self.colon as usize + 1..self.end as usize - 2]
    }
    pub fn folded_text<'a>(&self, header: &'a [u8]) -> &'a [u8] {
        let mut text = self.value(header);
        while let [b' ' | b'\t' | b'\r' | b'\n', rest @ ..] = text {
            text = rest;
        }
        text
    }
}

/// Some on the stack; past that, all in a vector.
pub struct Fields {
    some: [MaybeUninit<Field>; 96],
    len: usize,
    all: Vec<Field>,
}

impl Fields {
    #[inline(always)]
    pub fn new() -> Fields {
        Fields { some: [MaybeUninit::uninit(); 96], len: 0, all: Vec::new() }
    }
    #[inline]
    fn push(&mut self, field: Field) {
        if self.len < 96 {
            self.some[self.len].write(field);
            self.len += 1;
        } else {
            if self.all.is_empty() {
                self.all = self.as_slice().to_vec();
            }
            self.all.push(field);
        }
    }
    pub fn as_mut_slice(&mut self) -> &mut [Field] {
        if !self.all.is_empty() {
            return &mut self.all;
        }
        // SAFETY: the first `len` are written.
        unsafe { std::slice::from_raw_parts_mut(self.some.as_mut_ptr() as *mut Field, self.len) }
    }
    pub fn as_slice(&self) -> &[Field] {
        if !self.all.is_empty() {
            return &self.all;
        }
        // SAFETY: the first `len` are written.
        unsafe { std::slice::from_raw_parts(self.some.as_ptr() as *const Field, self.len) }
    }
}

#[inline(always)]
pub fn is_blank(b: u8) -> bool {
    b == b' ' || b == b'\t'
}

/// The place of the colon after the name at the front.
fn name_end(line: &[u8]) -> Option<usize> {
    let mut at = 0;
    while at < line.len() && at <= NAME {
        match line[at] {
            b':' => return if at > 0 { Some(at) } else { None },
            33..=126 => at += 1,
            _ => return None,
        }
    }
    None
}

#[inline(always)]
fn colon(header: &[u8], start: usize) -> Option<usize> {
    if start + 16 <= header.len() {
        let v = V::at(header, start);
        let colons = v.is(b':');
        if colons > 1 {
            let first = colons.trailing_zeros();
            let good = v.in_range(33, 126);
            if first > 0 && (!good & ((1 << first) - 1)) == 0 {
                return Some(start + first as usize);
            }
            return None;
        }
    }
    Some(start + name_end(&header[start..])?)
}

struct Walk {
    line: usize,
    begin: usize,
    colon: usize,
    line_high: bool,
    high: bool,
    folded: bool,
}

impl Walk {
    /// Ends the line at `end`. False where it is malformed.
    #[inline(always)]
    fn line(&mut self, header: &[u8], end: usize, fields: &mut Fields) -> bool {
        let start = self.line;
        if end == start || end - start > LINE {
            return false;
        }
        if is_blank(header[start]) {
            if start == 0 {
                return false;
            }
            self.folded = true;
            self.high |= self.line_high;
        } else {
            self.close(start, header, fields);
            match colon(header, start) {
                Some(colon) => self.colon = colon,
                None => return false,
            }
            self.begin = start;
            self.folded = false;
            self.high = self.line_high;
        }
        self.line = end + 2;
        self.line_high = false;
        true
    }
    #[inline(always)]
    fn close(&mut self, end: usize, header: &[u8], fields: &mut Fields) {
        if self.high {
            let kind = kind(&header[self.begin..self.colon]);
            fields.push(Field {
                start: self.begin as u16,
                colon: self.colon as u16,
                end: end as u16,
                folded: self.folded,
                kind,
            });
        }
    }
}

/// The check of all lines, 64 bytes at a time; false where one is malformed. The fields that are not ASCII are added.
fn scan(header: &[u8], fields: &mut Fields) -> bool {
    let mut walk = Walk { line: 0, begin: 0, colon: 0, line_high: false, high: false, folded: false };
    let (mut pos, mut carry, mut tail_high) = (0, 0u64, false);
    while pos < header.len() {
        let mut pad = [b' '; 80];
        let n = header.len() - pos;
        // 16 bytes before the block, and the block.
        let around: &[u8; 80] = if pos >= 16 && n >= 64 {
            header[pos - 16..pos + 64].try_into().unwrap()
        } else {
            let n = n.min(64);
            let before = pos.min(16);
            pad[16 - before..16 + n].copy_from_slice(&header[pos - before..pos + n]);
            &pad
        };
        let v = [V::at(around, 16), V::at(around, 32), V::at(around, 48), V::at(around, 64)];
        let all =
            |f: fn(V) -> u32| f(v[0]) as u64 | (f(v[1]) as u64) << 16 | (f(v[2]) as u64) << 32 | (f(v[3]) as u64) << 48;
        let cr = all(|v| v.is(b'\r'));
        let lf = all(|v| v.is(b'\n'));
        let nul = all(|v| v.is(0));
        let mut high = all(V::high);
        if lf != (cr << 1 | carry) || nul != 0 {
            return false;
        }
        carry = cr >> 63;
        if high != 0 || tail_high {
            let (mut faults, mut long) = (0, 0);
            for k in 0..4 {
                let at = 16 + 16 * k;
                let (f, l) = v[k].utf8_faults(V::at(around, at - 1), V::at(around, at - 2), V::at(around, at - 3));
                faults |= f;
                long |= l;
            }
            if faults != 0 || (long != 0 && !long_well(header, pos)) {
                return false;
            }
            tail_high = high >> 61 != 0;
        }
        let mut bits = cr;
        while bits != 0 {
            let k = bits.trailing_zeros();
            bits &= bits - 1;
            let below = (1u64 << k) - 1;
            walk.line_high |= high & below != 0;
            high &= !below;
            if !walk.line(header, pos + k as usize, fields) {
                return false;
            }
        }
        walk.line_high |= high != 0;
        pos += 64;
    }
    if carry != 0 || walk.line != header.len() {
        return false;
    }
    walk.close(header.len(), header, fields);
    true
}

/// Characters of four bytes of the block at `pos`: their first two bytes. Their other bytes are known to be placed well.
#[cold]
fn long_well(header: &[u8], pos: usize) -> bool {
    let end = header.len().min(pos + 64);
    (pos.saturating_sub(1)..end).all(|i| match header[i] {
        0xF0 => header.get(i + 1).is_none_or(|b| (0x90..=0xBF).contains(b)),
        0xF1..=0xF3 => true,
        0xF4 => header.get(i + 1).is_none_or(|b| (0x80..=0x8F).contains(b)),
        0xF5.. => false,
        _ => true,
    })
}

/// The fields that are not ASCII; or the first malformed line, its number and its start.
#[inline]
pub fn check(header: &[u8], fields: &mut Fields) -> Result<(), (usize, usize)> {
    if scan(header, fields) {
        return Ok(());
    }
    Err(first_fault(header))
}

#[cold]
fn first_fault(header: &[u8]) -> (usize, usize) {
    let good = match std::str::from_utf8(header) {
        Ok(_) => header.len(),
        Err(fault) => fault.valid_up_to(),
    };
    let (mut number, mut start) = (0, 0);
    loop {
        let end =
            start + header[start..].iter().position(|b| matches!(b, b'\r' | b'\n' | 0)).unwrap_or(header.len() - start);
        let ended = header.get(end) == Some(&b'\r') && header.get(end + 1) == Some(&b'\n');
        let len = end - start;
        if !ended || len == 0 || len > LINE || end > good {
            return (number, start);
        }
        if !(is_blank(header[start]) && number > 0) && name_end(&header[start..end]).is_none() {
            return (number, start);
        }
        number += 1;
        start = end + 2;
    }
}

/// The number of the line that begins at `start`.
#[cold]
pub fn line_number(header: &[u8], start: usize) -> usize {
    header[..start].iter().filter(|&&b| b == b'\n').count()
}

/// A text without its CRLFs, each of which stands before a continuation.
#[inline]
pub fn unfolded(folded: &[u8], out: &mut [u8]) -> usize {
    let (mut start, mut at) = (0, 0);
    while start < folded.len() {
        let end = next_cr(folded, start);
        out[at..at + end - start].copy_from_slice(&folded[start..end]);
        at += end - start;
        start = end + 2;
    }
    at
}
