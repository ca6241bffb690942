//! Address fields: the grammar of their text, parsed once to parts, and the pieces of the rewritten value.
use crate::address::{address, at_domain, word};
use crate::call::Profile;
use crate::comment::{self, comment_end};
use crate::header::is_blank;
use crate::out::Out;
use crate::simd::is_ascii;
use crate::words::row;
use std::mem::MaybeUninit;

const LONGEST: usize = 900;

#[derive(Clone, Copy, PartialEq, Eq)]
enum What {
    AsciiPhrase,
    Phrase,
    Bare,
    Angle,
    Removed,
    Comment,
    Comma,
    Colon,
    Semicolon,
}

#[derive(Clone, Copy)]
struct Part {
    what: What,
    start: u16,
    end: u16,
}

const SOME: usize = 64;
pub struct Parts {
    some: [MaybeUninit<Part>; SOME],
    len: usize,
    all: Vec<Part>,
    pub replaces: bool,
    removed: bool,
    profile: Profile,
}

impl Parts {
    #[inline(always)]
    pub fn new(profile: Profile) -> Parts {
        Parts { some: [MaybeUninit::uninit(); SOME], len: 0, all: Vec::new(), replaces: false, removed: false, profile }
    }
    #[inline]
    fn push(&mut self, what: What, start: usize, end: usize) {
        let part = Part { what, start: start as u16, end: end as u16 };
        if self.len < SOME {
            self.some[self.len].write(part);
        } else {
            if self.len == SOME {
                self.all = self.as_slice().to_vec();
            }
            self.all.push(part);
        }
        self.len += 1;
    }
    fn truncate(&mut self, len: usize) {
        if self.len > SOME {
            self.all.truncate(len);
            if len <= SOME {
                for (to, from) in self.some.iter_mut().zip(&self.all) {
                    to.write(*from);
                }
            }
        }
        self.len = len;
    }
    fn as_slice(&self) -> &[Part] {
        if self.len > SOME {
            return &self.all;
        }
        // SAFETY: the first `len` are written.
        unsafe { std::slice::from_raw_parts(self.some.as_ptr() as *const Part, self.len) }
    }

    /// None where the text does not fit.
    pub fn list(&mut self, text: &[u8]) -> Option<()> {
        let mut at = self.gap(text, 0)?;
        loop {
            at = match self.mailbox(text, at)? {
                Mailbox::End(end) => end,
                Mailbox::Phrase(end) => self.group(text, end)?,
            };
            at = self.gap(text, at)?;
            if at == text.len() {
                return Some(());
            }
            at = self.mark(text, at, b',', What::Comma)?;
        }
    }

    /// From a group's colon to behind its semicolon.
    fn group(&mut self, text: &[u8], colon: usize) -> Option<usize> {
        let before = self.len;
        self.removed = false;
        let mut at = self.mark(text, colon, b':', What::Colon)?;
        if text.get(at) != Some(&b';') {
            loop {
                at = match self.mailbox(text, at)? {
                    Mailbox::End(end) => self.gap(text, end)?,
                    Mailbox::Phrase(_) => return None,
                };
                if text.get(at) == Some(&b';') {
                    break;
                }
                at = self.mark(text, at, b',', What::Comma)?;
            }
        }
        if self.removed {
            let (mut start, mut end) = (colon + 1, at);
            while start < end && is_blank(text[start]) {
                start += 1;
            }
            while start < end && is_blank(text[end - 1]) {
                end -= 1;
            }
            self.truncate(before);
            self.push(What::Removed, start, end);
        } else {
            self.push(What::Semicolon, at, at);
        }
        Some(at + 1)
    }

    #[inline(always)]
    fn address(&mut self, text: &[u8], start: usize, end: usize, what: What) {
        if is_ascii(&text[start..end]) {
            return self.push(what, start, end);
        }
        self.replaces = true;
        self.removed = true;
        self.push(What::Removed, start, end);
    }

    fn mailbox(&mut self, text: &[u8], at: usize) -> Option<Mailbox> {
        let mut at = at;
        if text.get(at) != Some(&b'<') {
            let first = word(text, at)?;
            if text.get(first) == Some(&b'@') {
                // The local part is a word; a dot at its start or end, or two together, only a phrase may have.
                let end = if dotted_well(&text[at..first]) { at_domain(text, first)? } else { return None };
                if end - at > LONGEST {
                    return None;
                }
                self.address(text, at, end, What::Bare);
                return Some(Mailbox::End(end));
            }
            let end = phrase_from(text, at, first)?;
            let what = if is_ascii(&text[at..end]) { What::AsciiPhrase } else { What::Phrase };
            self.push(what, at, end);
            at = self.gap(text, end)?;
            if text.get(at) != Some(&b'<') {
                return Some(Mailbox::Phrase(at));
            }
        }
        self.angle(text, at).map(Mailbox::End)
    }

    fn angle(&mut self, text: &[u8], at: usize) -> Option<usize> {
        let start = blanks(text, at + 1);
        let end = address(text, start)?;
        if end - start > LONGEST {
            return None;
        }
        if text.get(end) == Some(&b'>') {
            self.address(text, start, end, What::Angle);
            return Some(end + 1);
        }
        let inner = blanks(text, end);
        if self.profile != Profile::Spool
            || inner == end
            || text.get(inner) != Some(&b'<')
            || is_ascii(&text[start..end])
        {
            return None;
        }
        let start = blanks(text, inner + 1);
        let end = address(text, start)?;
        if end - start > LONGEST || !is_ascii(&text[start..end]) || !text[end..].starts_with(b">>") {
            return None;
        }
        self.replaces = true;
        self.push(What::Angle, start, end);
        Some(end + 2)
    }

    /// Blanks and comments.
    #[inline(always)]
    fn gap(&mut self, text: &[u8], at: usize) -> Option<usize> {
        let at = blanks(text, at);
        if text.get(at) == Some(&b'(') {
            self.comments(text, at)
        } else {
            Some(at)
        }
    }

    fn comments(&mut self, text: &[u8], at: usize) -> Option<usize> {
        let mut at = at;
        while text.get(at) == Some(&b'(') {
            let end = comment_end(text, at)?;
            if end - at > LONGEST {
                let mut fits = true;
                comment::parts(&text[at..end], |part| fits &= part.len() <= LONGEST || is_dropped(part));
                if !fits {
                    return None;
                }
            }
            self.push(What::Comment, at, end);
            at = blanks(text, end);
        }
        Some(at)
    }

    #[inline(always)]
    fn mark(&mut self, text: &[u8], at: usize, mark: u8, what: What) -> Option<usize> {
        if text.get(at) != Some(&mark) {
            return None;
        }
        self.push(what, at, at);
        self.gap(text, at + 1)
    }

    /// The pieces of a text that fits.
    pub fn write(&self, out: &mut Out, text: &[u8]) {
        for part in self.as_slice() {
            let t = &text[part.start as usize..part.end as usize];
            match part.what {
                What::AsciiPhrase => words(t, |word| piece(out, word)),
                What::Phrase => write_phrase(out, t),
                What::Bare => piece(out, t),
                What::Angle => {
                    out.put(b"\r\n <");
                    out.copy(t);
                    out.put(b">");
                }
                What::Removed => {
                    if self.profile == Profile::Mailbox {
                        row(out, t);
                        out.put(b"\r\n :;");
                    } else {
                        out.put(b"\r\n Internationalized Address");
                        row(out, t);
                        out.put(b"\r\n Removed:;");
                    }
                }
                What::Comment => comment::parts(t, |part| {
                    if is_dropped(part) {
                    } else if is_ascii(part) {
                        piece(out, part)
                    } else {
                        comment::write_run(out, part)
                    }
                }),
                What::Comma => out.put(b","),
                What::Colon => out.put(b"\r\n :"),
                What::Semicolon => out.put(b"\r\n ;"),
            }
        }
    }
}

enum Mailbox {
    End(usize),
    Phrase(usize),
}

/// A quoted string, or atoms with one dot between each two.
fn dotted_well(local: &[u8]) -> bool {
    if local[0] == b'"' {
        return true;
    }
    if local[0] == b'.' || local[local.len() - 1] == b'.' {
        return false;
    }
    !local.windows(2).any(|two| two == b"..")
}

fn phrase_from(text: &[u8], at: usize, first: usize) -> Option<usize> {
    if first - at > LONGEST {
        return None;
    }
    let mut end = first;
    loop {
        let next = blanks(text, end);
        if next == end || next == text.len() || b"<>,:;@(".contains(&text[next]) {
            return Some(end);
        }
        end = word(text, next)?;
        if end - next > LONGEST {
            return None;
        }
    }
}

#[inline(always)]
fn blanks(text: &[u8], mut at: usize) -> usize {
    while at < text.len() && is_blank(text[at]) {
        at += 1;
    }
    at
}

fn is_dropped(run: &[u8]) -> bool {
    run.iter().all(|&b| is_blank(b))
}

#[inline(always)]
fn piece(out: &mut Out, piece: &[u8]) {
    out.put(b"\r\n ");
    out.copy(piece);
}

#[inline(always)]
fn words(phrase: &[u8], mut each: impl FnMut(&[u8])) {
    let mut at = 0;
    while let Some(end) = word(phrase, at) {
        each(&phrase[at..end]);
        at = blanks(phrase, end);
    }
}

/// Its words without quoting and escapes, joined by single spaces, in encoded words.
fn write_phrase(out: &mut Out, phrase: &[u8]) {
    // Mostly it is its own text.
    let mut last = 0;
    if !phrase.iter().any(|&b| {
        let odd = b == b'"' || b == b'\t' || (b == b' ' && last == b' ');
        last = b;
        odd
    }) {
        return row(out, phrase);
    }
    if phrase.len() <= 512 {
        return write_made(out, phrase, &mut [0; 1024]);
    }
    write_made(out, phrase, &mut vec![0; 2 * phrase.len()])
}

#[inline(never)]
fn write_made(out: &mut Out, phrase: &[u8], text: &mut [u8]) {
    let mut len = 0;
    let mut first = true;
    words(phrase, |word| {
        if !first {
            text[len] = b' ';
            len += 1;
        }
        first = false;
        if word[0] != b'"' {
            text[len..len + word.len()].copy_from_slice(word);
            len += word.len();
            return;
        }
        let (mut i, end) = (1, word.len() - 1);
        while i < end {
            if word[i] == b'\\' {
                i += 1;
            }
            text[len] = word[i];
            len += 1;
            i += 1;
        }
    });
    row(out, &text[..len])
}
