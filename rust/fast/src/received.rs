//! Received: its FOR clauses, which go when their address is non-ASCII, and its comments.
use crate::address::address;
use crate::comment::{self, comment_end, string_end};
use crate::header::is_blank;
use crate::out::Out;
use crate::simd::is_ascii;

const LINE: usize = 998;

#[derive(Clone, Copy, PartialEq, Eq)]
enum Stretch {
    Comment,
    Clause,
    Other,
}

static STOPS: [bool; 256] = {
    let mut stops = [false; 256];
    stops[b'"' as usize] = true;
    stops[b'(' as usize] = true;
    stops[b'f' as usize] = true;
    stops[b'F' as usize] = true;
    stops
};

/// The value cut into its stretches; false where a for has no address.
#[inline(always)]
fn stretches(value: &[u8], mut each: impl FnMut(&[u8], Stretch)) -> bool {
    let (mut done, mut at, mut unclosed) = (0, 0, false);
    loop {
        while at < value.len() && !STOPS[value[at] as usize] {
            at += 1;
        }
        if at >= value.len() {
            break;
        }
        let (start, end, stretch) = match value[at] {
            b'"' => {
                at = string_end(value, at);
                continue;
            }
            b'(' if unclosed => {
                at += 1;
                continue;
            }
            b'(' => match comment_end(value, at) {
                Some(end) => (at, end, Stretch::Comment),
                None => {
                    unclosed = true;
                    at += 1;
                    continue;
                }
            },
            _ => {
                if !is_for(value, at) {
                    at += 1;
                    continue;
                }
                let Some(end) = clause_end(value, at) else { return false };
                if is_ascii(&value[at..end]) {
                    at = end;
                    continue;
                }
                (clause_start(value, at), end, Stretch::Clause)
            }
        };
        each(&value[done..start], Stretch::Other);
        each(&value[start..end], stretch);
        (done, at) = (end, end);
    }
    each(&value[done..], Stretch::Other);
    true
}

#[inline]
fn is_for(value: &[u8], at: usize) -> bool {
    (at == 0 || is_blank(value[at - 1]))
        && value.len() > at + 3
        && value[at..at + 3].eq_ignore_ascii_case(b"for")
        && matches!(value[at + 3], b' ' | b'\t' | b'\r' | b'<')
}

fn is_white(b: u8) -> bool {
    is_blank(b) || b == b'\r' || b == b'\n'
}

fn clause_start(value: &[u8], word: usize) -> usize {
    value[..word].iter().rposition(|&b| !is_white(b)).map_or(0, |last| last + 1)
}

fn clause_end(value: &[u8], word: usize) -> Option<usize> {
    let mut at = word + 3;
    while at < value.len() && is_white(value[at]) {
        at += 1;
    }
    if value.get(at) != Some(&b'<') {
        return None;
    }
    let end = address(value, at + 1)?;
    if value.get(end) == Some(&b'>') {
        Some(end + 1)
    } else {
        None
    }
}

/// Whether the field is held.
pub fn is_held(name_len: usize, value: &[u8]) -> bool {
    let (mut elsewhere, mut removed) = (false, false);
    let whole = stretches(value, |stretch, kind| {
        elsewhere |= kind == Stretch::Other && !is_ascii(stretch);
        removed |= kind == Stretch::Clause;
    });
    if !whole || elsewhere {
        return true;
    }
    // What has no more bytes than a line makes no longer one.
    removed && name_len + 1 + value.len() >= LINE && grows(name_len, value)
}

/// Whether a line grows past the limit. No line of encoded words does.
#[cold]
fn grows(name_len: usize, value: &[u8]) -> bool {
    let (mut line, mut longest) = (name_len + 1, 0);
    let mut add = |bytes: &[u8]| {
        for part in bytes.split_inclusive(|&b| b == b'\n') {
            line += part.len();
            longest = longest.max(line - if part.ends_with(b"\r\n") { 2 } else { 0 });
            if part.ends_with(b"\n") {
                line = 0;
            }
        }
    };
    stretches(value, |stretch, kind| match kind {
        Stretch::Comment => comment::parts(stretch, |part| {
            if is_ascii(part) {
                add(part)
            } else {
                add(b"\r\n ");
            }
        }),
        Stretch::Clause => {}
        Stretch::Other => add(stretch),
    });
    longest > LINE
}

pub fn write_value(out: &mut Out, value: &[u8]) {
    stretches(value, |stretch, kind| match kind {
        Stretch::Comment => comment::write_comment(out, stretch),
        Stretch::Clause => {}
        Stretch::Other => out.copy(stretch),
    });
}
