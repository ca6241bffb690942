//! Content-Type and Content-Disposition: parameter values that are not ASCII become RFC 2231's.
//! Written from request [7] of document 02, RFC 2045's token and RFC 2231's attribute-char.

use crate::comment::{self, comment_end, string_end};
use crate::sink::Sink;
use crate::utf8::char_len;
use std::collections::HashSet;

/// "a 76-character line"
const LINE: usize = 76;

/// A value is these, one after another.
#[derive(Clone, Copy, PartialEq, Eq, Debug)]
pub enum Part<'a> {
    Comment(&'a [u8]),
    Parameter(Parameter<'a>),
    Other(&'a [u8]),
}

#[derive(Clone, Copy, PartialEq, Eq, Debug)]
pub struct Parameter<'a> {
    /// As it stands.
    pub whole: &'a [u8],
    pub name: &'a [u8],
    /// What follows the `=`, with its quotes.
    pub value: &'a [u8],
}

/// "Where a parameter name has `*`, is shared by two parameters (any case) or leaves no room for a character, or
/// non-ASCII stands elsewhere, the field stays held."
#[derive(Clone, Copy, PartialEq, Eq, Debug)]
pub enum Held {
    Star,
    Shared,
    Room,
    Elsewhere,
}

/// The parts of a value, in order. [7.1]: strings and comments are those of [1]; behind an unclosed parenthesis there is no
/// comment, but `;` still begins parameters.
pub fn parts(value: &[u8]) -> Vec<Part<'_>> {
    let mut parts = Vec::new();
    // Up to here all has been given, and up to here all has been read.
    let (mut done, mut at) = (0, 0);
    let mut comments = true;
    // Only white space, folds and comments since a `;`.
    let mut after_semicolon = false;
    while at < value.len() {
        let found = match value[at] {
            b'(' if comments => match comment_end(value, at) {
                Some(end) => Some((end, Part::Comment(&value[at..end]))),
                None => {
                    comments = false;
                    None
                }
            },
            _ if after_semicolon => parameter(value, at, comments).map(|(end, found)| (end, Part::Parameter(found))),
            _ => None,
        };
        if let Some((end, part)) = found {
            if done < at {
                parts.push(Part::Other(&value[done..at]));
            }
            parts.push(part);
            after_semicolon &= matches!(part, Part::Comment(_));
            (done, at) = (end, end);
            continue;
        }
        after_semicolon = value[at] == b';' || (after_semicolon && is_white(value[at]));
        at = if value[at] == b'"' { string_end(value, at) } else { at + 1 };
    }
    if done < value.len() {
        parts.push(Part::Other(&value[done..]));
    }
    parts
}

/// "a token of RFC 2045, `=`, a closed quoted string or a run of token bytes and non-ASCII characters, then white space,
/// fold, comment, `;` or the end." [7.2]: "The run has at least one byte".
fn parameter(value: &[u8], at: usize, comments: bool) -> Option<(usize, Parameter<'_>)> {
    let equals = at + value[at..].iter().take_while(|&&b| is_token(b)).count();
    if equals == at || value.get(equals) != Some(&b'=') {
        return None;
    }
    let start = equals + 1;
    let end = if value.get(start) == Some(&b'"') {
        closed_string_end(value, start)?
    } else {
        start + value[start..].iter().take_while(|&&b| is_token(b) || b >= 128).count()
    };
    let followed = match value.get(end) {
        None | Some(b';') => true,
        Some(b'(') => comments && comment_end(value, end).is_some(),
        Some(&b) => is_white(b),
    };
    if end == start || !followed {
        return None;
    }
    Some((end, Parameter { whole: &value[at..end], name: &value[at..equals], value: &value[start..end] }))
}

/// RFC 2045: "any (US-ASCII) CHAR except SPACE, CTLs, or tspecials"
fn is_token(b: u8) -> bool {
    matches!(b, 33..=126) && !b"()<>@,;:\\\"/[]?=".contains(&b)
}

/// In a value each CRLF is that of a fold.
fn is_white(b: u8) -> bool {
    matches!(b, b' ' | b'\t' | b'\r' | b'\n')
}

/// Behind the quote that closes the string; none where it runs to the field's end.
fn closed_string_end(value: &[u8], quote: usize) -> Option<usize> {
    let mut at = quote + 1;
    while at < value.len() {
        match value[at] {
            b'"' => return Some(at + 1),
            b'\\' => at += 2,
            _ => at += 1,
        }
    }
    None
}

/// "Quoting, escapes and folds are taken off first." [7.3]: of a fold the blank stays; a backslash before a fold escapes
/// that blank.
pub fn text(value: &[u8]) -> Vec<u8> {
    let [b'"', inside @ .., b'"'] = value else { return value.to_vec() };
    // A CR or LF stands in folds alone.
    let unfolded: Vec<u8> = inside.iter().copied().filter(|b| !b"\r\n".contains(b)).collect();
    let mut text = Vec::new();
    let mut bytes = unfolded.iter();
    while let Some(&b) = bytes.next() {
        match b {
            // The first byte of the character that it escapes; the others stand for themselves.
            b'\\' => text.extend(bytes.next()),
            _ => text.push(b),
        }
    }
    text
}

/// RFC 2231's attribute-char: "any (US-ASCII) CHAR except SPACE, CTLs, "*", "'", "%", or tspecials"
pub fn is_attribute_char(b: u8) -> bool {
    is_token(b) && !b"*'%".contains(&b)
}

/// "uppercase hex after `%`, attribute characters bare"
fn spell(out: &mut Vec<u8>, character: &[u8]) {
    let digits = b"0123456789ABCDEF";
    for &b in character {
        if is_attribute_char(b) {
            out.push(b);
        } else {
            out.extend([b'%', digits[b as usize / 16], digits[b as usize % 16]]);
        }
    }
}

/// What stands between a name and the characters: of the only piece, or of a numbered one.
fn marks(number: Option<usize>) -> String {
    match number {
        // "charset UTF-8, empty language"
        None => "*=UTF-8''".to_string(),
        Some(0) => "*0*=UTF-8''".to_string(),
        Some(number) => format!("*{number}*="),
    }
}

/// How many characters fit in a piece. "begun by one space"; "room for a closing `;` is always counted".
pub fn room(name_len: usize, number: Option<usize>) -> usize {
    LINE.saturating_sub(1 + name_len + marks(number).len() + 1)
}

/// The spelled characters of each piece. "If `name*=` and the value fit a 76-character line they stand there; otherwise use
/// numbered parts [..], whole characters in each, each as full as its line allows." None where [7.8] "some part's line cannot
/// take the next character".
pub fn pieces(name_len: usize, text: &[u8]) -> Option<Vec<Vec<u8>>> {
    let mut whole = Vec::new();
    spell(&mut whole, text);
    if whole.len() <= room(name_len, None) {
        return Some(vec![whole]);
    }
    let mut pieces = Vec::new();
    let mut rest = text;
    while !rest.is_empty() {
        let room = room(name_len, Some(pieces.len()));
        let mut piece = Vec::new();
        while let Some(&first) = rest.first() {
            let (character, behind) = rest.split_at(char_len(first));
            let before = piece.len();
            spell(&mut piece, character);
            if piece.len() > room {
                piece.truncate(before);
                break;
            }
            rest = behind;
        }
        if piece.is_empty() {
            return None;
        }
        pieces.push(piece);
    }
    Some(pieces)
}

/// [7.6]: "A value is converted or left by its own bytes: ASCII values stay as they stand."
pub fn is_converted(parameter: &Parameter) -> bool {
    !parameter.value.is_ascii()
}

/// Why a field whose value is not ASCII is held, if it is. [7.7]: names count whether their values are ASCII or not.
pub fn check(value: &[u8]) -> Result<(), Held> {
    let mut names = HashSet::new();
    for part in parts(value) {
        match part {
            Part::Comment(_) => {}
            Part::Other(other) if other.is_ascii() => {}
            Part::Other(_) => return Err(Held::Elsewhere),
            Part::Parameter(parameter) => {
                if parameter.name.contains(&b'*') {
                    return Err(Held::Star);
                }
                if !names.insert(parameter.name.to_ascii_lowercase()) {
                    return Err(Held::Shared);
                }
                if is_converted(&parameter) && pieces(parameter.name.len(), &text(parameter.value)).is_none() {
                    return Err(Held::Room);
                }
            }
        }
    }
    Ok(())
}

/// What has been written last.
#[derive(Clone, Copy, PartialEq, Eq)]
enum Last {
    /// A converted piece, whose `;` may come.
    Piece,
    /// A converted piece and its `;`.
    PieceEnded,
    /// Anything else, or nothing.
    Other,
}

struct Lines<'a, S: Sink> {
    sink: &'a mut S,
    last: Last,
}

impl<S: Sink> Lines<'_, S> {
    /// "What follows the last piece and its `;` [..] starts a new line with a space, unless nothing is left."
    fn begin(&mut self) {
        if self.last != Last::Other {
            self.sink.put(b"\r\n ");
        }
        self.last = Last::Other;
    }

    /// What is neither a comment nor converted. "What follows the last piece and its `;` (only white space and folds between,
    /// which go), less white space and folds at its front"
    fn other(&mut self, bytes: &[u8], before_piece: bool) {
        let mut rest = bytes;
        if self.last == Last::Piece {
            rest = without_front(rest);
            if let Some(behind) = rest.strip_prefix(b";") {
                self.sink.put(b";");
                self.last = Last::PieceEnded;
                rest = behind;
            }
        }
        if self.last == Last::PieceEnded {
            rest = without_front(rest);
        }
        // "white space and folds before it go". [7.5]: "those between the piece and the `;` or comment before it".
        while let ([before @ .., b' ' | b'\t' | b'\r' | b'\n'], true) = (rest, before_piece) {
            rest = before;
        }
        if !rest.is_empty() {
            self.begin();
            self.sink.put(rest);
        }
    }

    /// "Each converted piece has its own line, begun by one space"
    fn converted(&mut self, parameter: &Parameter) {
        let pieces = pieces(parameter.name.len(), &text(parameter.value)).expect("room for each character");
        let alone = pieces.len() == 1;
        for (number, piece) in pieces.iter().enumerate() {
            self.sink.put(if number == 0 { b"\r\n " } else { b";\r\n " });
            self.sink.put(parameter.name);
            self.sink.put(marks(if alone { None } else { Some(number) }).as_bytes());
            self.sink.put(piece);
        }
        self.last = Last::Piece;
    }
}

fn without_front(bytes: &[u8]) -> &[u8] {
    let mut rest = bytes;
    while let [b' ' | b'\t' | b'\r' | b'\n', behind @ ..] = rest {
        rest = behind;
    }
    rest
}

/// A value that is not held. "Comments follow [1]."
pub fn write_value(sink: &mut impl Sink, value: &[u8]) {
    let parts = parts(value);
    let mut lines = Lines { sink, last: Last::Other };
    for (at, part) in parts.iter().enumerate() {
        match part {
            Part::Comment(whole) => {
                lines.begin();
                comment::write_comment(lines.sink, whole);
            }
            Part::Parameter(parameter) if is_converted(parameter) => lines.converted(parameter),
            Part::Parameter(parameter) => {
                lines.begin();
                lines.sink.put(parameter.whole);
            }
            Part::Other(other) => {
                let next = parts.get(at + 1);
                let before_piece = matches!(next, Some(Part::Parameter(parameter)) if is_converted(parameter));
                lines.other(other, before_piece);
            }
        }
    }
}
