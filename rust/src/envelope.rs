//! The envelope: its lines checked (2, 3, 4, 10, and 6 for ORCPT), what replaces their paths, and the writing.
//! Written from document 01, Envelope lines and Address fields, and the requests named below.

use crate::address::{address, decode_xtext, is_ascii_address, value_end, LINE};
use crate::call::Setting;
use crate::offset;
use crate::sink::Sink;
use crate::utf8::{find, is_utf8};
use crate::words::row_after_name;

/// "One MAIL line, then 1 to 100 RCPT lines"
const LINES: usize = 101;

/// A path that its ALT-ADDRESS replaces; places in the envelope.
#[derive(Clone, Copy, Default)]
struct Swap {
    line: usize,
    path: usize,
    path_end: usize,
    /// The space before the parameter.
    parameter: usize,
    value: usize,
    value_end: usize,
}

/// A well-formed envelope.
pub struct Envelope<'a> {
    setting: Setting,
    bytes: &'a [u8],
    lines: usize,
    swaps: [Swap; LINES],
    swapped: usize,
    /// The first line with an ORCPT that carries non-ASCII, and the first such byte of its values.
    pub held: Option<(usize, usize)>,
}

pub struct Refusal {
    pub number: u32,
    pub line: usize,
    pub offset: usize,
}

/// The parts of a well-formed line; places in the line.
pub struct Line {
    path: usize,
    path_end: usize,
    /// The space before it, its value, its end.
    alternative: Option<(usize, usize, usize)>,
    /// The first non-ASCII byte of an ORCPT value.
    held: Option<usize>,
}

/// "2, 3 and 4 as the first envelope line at fault, the lowest number within one line", and 10 of [13].
pub fn check(bytes: &[u8], setting: Setting) -> Result<Envelope<'_>, Refusal> {
    let mut envelope = Envelope { setting, bytes, lines: 0, swaps: [Swap::default(); LINES], swapped: 0, held: None };
    let mut start = 0;
    while start < bytes.len() {
        let line = envelope.lines;
        start = envelope.take_line(start).map_err(|(number, offset)| Refusal { number, line, offset })?;
    }
    // "A missing line is malformed at its number, so an empty envelope is 2 at line 0". [8.3]: "A missing line is
    // empty and ends at the end of the envelope".
    if envelope.lines < 2 {
        return Err(Refusal { number: 2, line: envelope.lines, offset: bytes.len() });
    }
    Ok(envelope)
}

fn is_alternative(value: &[u8]) -> bool {
    let mut room = [0; LINE];
    matches!(decode_xtext(value, &mut room), Some(new) if is_ascii_address(new))
}

/// "The form is `MAIL FROM:<path>` or `RCPT TO:<path>`, verbs in any case, then parameters, each after one space".
/// None where the line is malformed.
pub fn line_parts(line: &[u8], number: usize) -> Option<Line> {
    // "at most 998 bytes", "the 101st RCPT is malformed", "bad UTF-8"
    if line.len() > LINE || number == LINES || !is_utf8(line) {
        return None;
    }
    let verb: &[u8] = if number == 0 { b"MAIL FROM:<" } else { b"RCPT TO:<" };
    if !starts_in_any_case(line, verb) {
        return None;
    }
    let path = verb.len();
    // "A path is an address; MAIL may have an empty one, and RCPT may have the bare word Postmaster in any case."
    let path_end = match address(line, path) {
        Some(end) => end,
        None if number == 0 => path,
        None if starts_in_any_case(&line[path..], b"Postmaster") => path + 10,
        None => return None,
    };
    if line.get(path_end) != Some(&b'>') {
        return None;
    }
    let mut parts = Line { path, path_end, alternative: None, held: None };
    let mut at = path_end + 1;
    while at < line.len() {
        at = parameter(line, at, &mut parts)?;
    }
    Some(parts)
}

fn starts_in_any_case(s: &[u8], start: &[u8]) -> bool {
    s.len() >= start.len() && s[..start.len()].eq_ignore_ascii_case(start)
}

/// One parameter with the space before it; its end.
fn parameter(line: &[u8], space: usize, parts: &mut Line) -> Option<usize> {
    if line[space] != b' ' {
        return None;
    }
    // "a keyword (letters, digits, hyphens, first not a hyphen)"
    let start = space + 1;
    let mut end = start;
    while end < line.len() && (line[end].is_ascii_alphanumeric() || line[end] == b'-') {
        end += 1;
    }
    if end == start || line[start] == b'-' {
        return None;
    }
    // "Keywords compare in any case."
    let keyword = &line[start..end];
    let alternative = keyword.eq_ignore_ascii_case(b"ALT-ADDRESS");
    if line.get(end) != Some(&b'=') {
        // "an ALT-ADDRESS without a value" is malformed
        return if alternative { None } else { Some(end) };
    }
    // "and maybe `=` with a value of one or more bytes 33 to 126 other than `=`. Only ORCPT may also hold non-ASCII
    // in its value."
    let value = end + 1;
    let orcpt = keyword.eq_ignore_ascii_case(b"ORCPT");
    let end = value_end(line, value, orcpt);
    if end == value {
        return None;
    }
    if orcpt && parts.held.is_none() {
        parts.held = (value..end).find(|&at| line[at] >= 128);
    }
    if alternative {
        // "a second ALT-ADDRESS" is malformed
        if parts.alternative.is_some() {
            return None;
        }
        parts.alternative = Some((space, value, end));
    }
    Some(end)
}

impl Envelope<'_> {
    /// Checks the line that begins at `start` and notes what the call needs of it: where the next line begins, or the
    /// number and the offset of the refusal.
    fn take_line(&mut self, start: usize) -> Result<usize, (u32, usize)> {
        let malformed = || {
            let stop = offset::envelope_line(&self.bytes[start..], self.lines, LINE);
            (2, start + stop.expect("a malformed line stops somewhere").at)
        };
        // "each ended by CRLF": a CR without LF, and a last line without CRLF, are malformed.
        let end = find(self.bytes, start, |b| b == b'\r');
        if self.bytes.get(end + 1) != Some(&b'\n') {
            return Err(malformed());
        }
        let line = &self.bytes[start..end];
        let parts = line_parts(line, self.lines).ok_or_else(malformed)?;
        let path = &line[parts.path..parts.path_end];
        match parts.alternative {
            // 3: "path not ASCII, no ALT-ADDRESS". [8.8]: "3 points at the byte after `<`, 4 at the byte after the `=`".
            None if !path.is_ascii() => return Err((3, start + parts.path)),
            None => {}
            // 10: "ALT-ADDRESS in a current message, on its line after 2, in place of 4 and with 4's offset"
            Some((_, value, _)) if self.setting == Setting::Current => return Err((10, start + value)),
            // 4: "ALT-ADDRESS beside an ASCII path, or not xtext of an ASCII address"
            Some((_, value, end)) if path.is_ascii() || !is_alternative(&line[value..end]) => {
                return Err((4, start + value))
            }
            Some((parameter, value, value_end)) => {
                self.swaps[self.swapped] = Swap {
                    line: self.lines,
                    path: start + parts.path,
                    path_end: start + parts.path_end,
                    parameter: start + parameter,
                    value: start + value,
                    value_end: start + value_end,
                };
                self.swapped += 1;
            }
        }
        if self.held.is_none() {
            self.held = parts.held.map(|at| (self.lines, start + at));
        }
        self.lines += 1;
        Ok(end + 2)
    }

    /// "A non-ASCII path is replaced by the decoded ALT-ADDRESS, and that parameter goes with the space before it.
    /// Nothing else changes."
    pub fn write(&self, sink: &mut impl Sink) {
        let mut room = [0; LINE];
        let mut done = 0;
        for swap in &self.swaps[..self.swapped] {
            sink.put(&self.bytes[done..swap.path]);
            sink.put(decode_xtext(&self.bytes[swap.value..swap.value_end], &mut room).unwrap_or_default());
            sink.put(&self.bytes[swap.path_end..swap.parameter]);
            done = swap.value_end;
        }
        sink.put(&self.bytes[done..]);
    }

    /// "New first fields: `Downgraded-Mail-From` when the MAIL path was replaced, then `Downgraded-Rcpt-To` when
    /// there is exactly one RCPT line and it was replaced."
    pub fn first_fields(&self, sink: &mut impl Sink) {
        for (name, text) in self.first_texts() {
            sink.put(name);
            sink.put(b":");
            row_after_name(sink, name.len(), &text);
            sink.put(b"\r\n");
        }
    }

    /// Their names and texts: "encoded words of `<old <new>>`, the new decoded".
    pub fn first_texts(&self) -> Vec<(&'static [u8], Vec<u8>)> {
        let mut texts = Vec::new();
        for swap in &self.swaps[..self.swapped] {
            let name: &[u8] = match swap.line {
                0 => b"Downgraded-Mail-From",
                _ if self.lines == 2 => b"Downgraded-Rcpt-To",
                _ => continue,
            };
            let mut room = [0; LINE];
            let new = decode_xtext(&self.bytes[swap.value..swap.value_end], &mut room).unwrap_or_default();
            texts.push((name, [b"<", &self.bytes[swap.path..swap.path_end], b" <", new, b">>"].concat()));
        }
        texts
    }
}
