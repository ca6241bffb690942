//! Comments in parentheses: where one ends, its runs and their texts, and the fields whose comments alone are rewritten.
//! Written from request [1] of document 02.

use crate::sink::Sink;
use crate::utf8::char_len;
use crate::words::row;

/// Behind the `)` of the comment whose `(` stands at `at`; none where it is unclosed. "comments inside comments to any
/// depth"; "in all comments a backslash escapes any next character". [1.17]: a quote is a character like others.
/// In a folded value a backslash may stand before a CRLF: passing over the CR alone is enough, as no byte of a fold
/// opens or closes anything.
pub fn comment_end(s: &[u8], at: usize) -> Option<usize> {
    let mut depth = 0usize;
    let mut at = at;
    while at < s.len() {
        match s[at] {
            b'(' => depth += 1,
            b')' if depth == 1 => return Some(at + 1),
            b')' => depth -= 1,
            b'\\' => at += 1,
            _ => {}
        }
        at += 1;
    }
    None
}

pub enum Part<'a> {
    Parenthesis(u8),
    /// [1.5]: "all bytes between two neighbouring parentheses", at least one.
    Run(&'a [u8]),
}

/// The parts of one whole comment, in order.
pub fn parts(comment: &[u8], mut each: impl FnMut(Part)) {
    let mut start = 0;
    let mut at = 0;
    while at < comment.len() {
        match comment[at] {
            b'(' | b')' => {
                if start < at {
                    each(Part::Run(&comment[start..at]));
                }
                each(Part::Parenthesis(comment[at]));
                start = at + 1;
            }
            b'\\' => at += 1,
            _ => {}
        }
        at += 1;
    }
}

/// "encoded words of that run without escapes and folds". [1.18]: of a fold the blank after the CRLF stays, and a
/// backslash before a fold escapes that blank.
pub fn write_run(sink: &mut impl Sink, run: &[u8]) {
    let mut rest = run;
    let mut text = Vec::new();
    while let Some(at) = rest.iter().position(|&b| b == b'\\' || b == b'\r') {
        text.extend_from_slice(&rest[..at]);
        let escaped = rest[at] == b'\\';
        rest = &rest[at + escaped as usize..];
        rest = rest.strip_prefix(b"\r\n").unwrap_or(rest);
        if escaped {
            let (character, behind) = rest.split_at(char_len(rest[0]));
            text.extend_from_slice(character);
            rest = behind;
        }
    }
    if text.is_empty() {
        return row(sink, rest);
    }
    text.extend_from_slice(rest);
    row(sink, &text);
}

/// A value of a field other than an address field, cut into its comments (`each` gets true) and what stands between
/// them. "No comment starts inside a quoted string." "An unclosed parenthesis [..]; in the others nothing after it is
/// a comment." [1.12], [1.13]: nothing else keeps a `(` from opening a comment, neither `< >` nor a backslash.
pub fn stretches(value: &[u8], mut each: impl FnMut(&[u8], bool)) {
    let mut done = 0;
    let mut at = 0;
    while at < value.len() {
        match value[at] {
            b'"' => at = string_end(value, at),
            b'(' => match comment_end(value, at) {
                Some(end) => {
                    each(&value[done..at], false);
                    each(&value[at..end], true);
                    done = end;
                    at = end;
                }
                None => break,
            },
            _ => at += 1,
        }
    }
    each(&value[done..], false);
}

/// "an unclosed string runs to the field's end; in strings there [..] a backslash escapes any next character"
pub fn string_end(value: &[u8], quote: usize) -> usize {
    let mut at = quote + 1;
    while at < value.len() {
        match value[at] {
            b'"' => return at + 1,
            b'\\' => at += 2,
            _ => at += 1,
        }
    }
    value.len()
}

/// "held only if non-ASCII stands outside their comments"
pub fn non_ascii_outside(value: &[u8]) -> bool {
    let mut found = false;
    stretches(value, |stretch, comment| found |= !comment && !stretch.is_ascii());
    found
}

/// "The same is done, all else byte for byte": each run that has non-ASCII becomes encoded words, "and what follows a
/// word starts a new line with a space." [1.7]: blank runs stay, and runs of any length are encoded.
pub fn write_value(sink: &mut impl Sink, value: &[u8]) {
    stretches(value, |stretch, comment| if comment { write_comment(sink, stretch) } else { sink.put(stretch) });
}

/// One comment of a field other than an address field.
pub fn write_comment(sink: &mut impl Sink, comment: &[u8]) {
    if comment.is_ascii() {
        return sink.put(comment);
    }
    parts(comment, |part| match part {
        Part::Parenthesis(b) => sink.put(&[b]),
        Part::Run(run) if run.is_ascii() => sink.put(run),
        Part::Run(run) => {
            write_run(sink, run);
            sink.put(b"\r\n ");
        }
    });
}
