//! Received: its FOR clauses, which go when their address is non-ASCII, and its comments.
//! Written from request [2] of document 02.

use crate::address::address;
use crate::comment::{self, comment_end, string_end};
use crate::header::is_blank;
use crate::sink::Sink;
use crate::utf8::find;

/// [2.9]: "any line of the field as it would be written, name and colon counted, CRLF not"
const LINE: usize = 998;

#[derive(Clone, Copy, PartialEq, Eq, Debug)]
pub enum Stretch {
    Comment,
    /// A clause whose address is non-ASCII, from the first of the blanks and folds before it up to its `>`.
    Clause,
    /// All else, clauses whose address is ASCII too.
    Other,
}

/// "A Received field with a for that no such address, ASCII or not, follows, with non-ASCII left elsewhere, or with a
/// line grown past 998 bytes, is still held."
#[derive(Clone, Copy, PartialEq, Eq, Debug)]
pub enum Held {
    NoAddress,
    Elsewhere,
    Line,
}

/// The value cut into its stretches, in order; an error where a for has no address. [2.8]: "The field is read once, as it
/// came."
pub fn stretches(value: &[u8], mut each: impl FnMut(&[u8], Stretch)) -> Result<(), Held> {
    // Up to here all has been given, and up to here all has been read.
    let (mut done, mut at) = (0, 0);
    // [2.4]: behind an unclosed parenthesis there is no comment, but there may be clauses and strings.
    let mut unclosed = false;
    while at < value.len() {
        let (start, end, stretch) = match value[at] {
            b'"' => {
                at = string_end(value, at);
                continue;
            }
            b'(' if !unclosed => match comment_end(value, at) {
                Some(end) => (at, end, Stretch::Comment),
                None => {
                    unclosed = true;
                    at += 1;
                    continue;
                }
            },
            b'f' | b'F' if is_for(value, at) => {
                let end = clause_end(value, at).ok_or(Held::NoAddress)?;
                if value[at..end].is_ascii() {
                    // [2.11]: it stays, and [2.3]: a parenthesis in it is none of a comment.
                    at = end;
                    continue;
                }
                (clause_start(value, at), end, Stretch::Clause)
            }
            _ => {
                at += 1;
                continue;
            }
        };
        each(&value[done..start], Stretch::Other);
        each(&value[start..end], stretch);
        (done, at) = (end, end);
    }
    each(&value[done..], Stretch::Other);
    Ok(())
}

/// "the word for (any case, white space or the colon before, white space, a fold or `<` after [..])". [2.1]: "the field's
/// colon". [2.2]: not at the field's end.
fn is_for(value: &[u8], at: usize) -> bool {
    let word = value.len() > at + 3 && value[at..at + 3].eq_ignore_ascii_case(b"for");
    // The blank of a fold stands last in it, its CR first.
    word && (at == 0 || is_blank(value[at - 1])) && matches!(value[at + 3], b' ' | b'\t' | b'\r' | b'<')
}

/// In a value each CRLF is that of a fold.
fn is_white(b: u8) -> bool {
    is_blank(b) || b == b'\r' || b == b'\n'
}

/// "the spaces, TABs and folds before it"
fn clause_start(value: &[u8], word: usize) -> usize {
    value[..word].iter().rposition(|&b| !is_white(b)).map_or(0, |last| last + 1)
}

/// "the white space and folds after and an address of document 01 in angle brackets". [2.10]: "read by the envelope's
/// grammar".
fn clause_end(value: &[u8], word: usize) -> Option<usize> {
    let mut at = word + 3;
    while at < value.len() && is_white(value[at]) {
        at += 1;
    }
    if value.get(at) != Some(&b'<') {
        return None;
    }
    let end = address(value, at + 1)?;
    if value.get(end) == Some(&b'>') {
        Some(end + 1)
    } else {
        None
    }
}

/// Why the field is held, if it is; `name_len` is the length of its name.
pub fn check(name_len: usize, value: &[u8]) -> Result<(), Held> {
    let (mut elsewhere, mut removed) = (false, false);
    stretches(value, |stretch, kind| {
        elsewhere |= kind == Stretch::Other && !stretch.is_ascii();
        removed |= kind == Stretch::Clause;
    })?;
    if elsewhere {
        return Err(Held::Elsewhere);
    }
    // [1.16]: no line grows for a comment. What has no more bytes than a line makes no longer one.
    if !removed || name_len + 1 + value.len() < LINE {
        return Ok(());
    }
    let mut lines = LongestLine { line: name_len + 1, longest: 0 };
    write_value(&mut lines, value);
    if lines.longest > LINE {
        return Err(Held::Line);
    }
    Ok(())
}

/// A value that is not held, without its clauses that go. "Comments follow [1]."
pub fn write_value(sink: &mut impl Sink, value: &[u8]) {
    let _ = stretches(value, |stretch, kind| match kind {
        Stretch::Comment => comment::write_comment(sink, stretch),
        Stretch::Clause => {}
        Stretch::Other => sink.put(stretch),
    });
}

/// Measures lines.
struct LongestLine {
    /// What stands on the last line.
    line: usize,
    longest: usize,
}

impl Sink for LongestLine {
    /// Every CR stands before an LF.
    fn put(&mut self, bytes: &[u8]) {
        let mut start = 0;
        loop {
            let end = find(bytes, start, |b| b == b'\r');
            self.line += end - start;
            self.longest = self.longest.max(self.line);
            if end == bytes.len() {
                return;
            }
            self.line = 0;
            start = end + 2;
        }
    }

    fn spell(&mut self, _characters: &[u8], size: usize) {
        self.line += size;
        self.longest = self.longest.max(self.line);
    }
    fn base64(&mut self, characters: &[u8], size: usize) {
        self.spell(characters, size);
    }
}
