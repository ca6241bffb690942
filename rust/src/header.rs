//! Header lines and fields: the check (5), names and their kinds, held names (6), and the text of a field.
//! Written from document 01, Header lines, and the requests named below.

use crate::utf8::{find, valid_len};

/// "has 1 to 998 bytes before it"
const LINE: usize = 998;
/// "a name of 1 to 76 bytes"
const NAME: usize = 76;

#[derive(Clone, Copy, PartialEq, Eq, Debug)]
pub enum Kind {
    Address,
    Plain,
    Held,
    /// [1]: "held only if non-ASCII stands outside their comments"
    HeldOutsideComments,
    /// [12]: "encapsulated if non-ASCII stands outside comments"
    EncapsulatedOutsideComments,
    /// [2]: held for its clauses and what stands outside them and its comments.
    Received,
    /// [7]: held for its parameters' names and what stands outside their values and its comments.
    Parameters,
    Other,
}

/// The named fields.
static NAMES: [(&str, Kind); 32] = [
    ("From", Kind::Address),
    ("Sender", Kind::Address),
    ("Reply-To", Kind::Address),
    ("To", Kind::Address),
    ("Cc", Kind::Address),
    ("Bcc", Kind::Address),
    ("Resent-From", Kind::Address),
    ("Resent-Sender", Kind::Address),
    ("Resent-Reply-To", Kind::Address),
    ("Resent-To", Kind::Address),
    ("Resent-Cc", Kind::Address),
    ("Resent-Bcc", Kind::Address),
    ("Return-Path", Kind::Address),
    ("Disposition-Notification-To", Kind::Address),
    ("Subject", Kind::Plain),
    ("Comments", Kind::Plain),
    ("Content-Description", Kind::Plain),
    ("Received", Kind::Received),
    ("Date", Kind::HeldOutsideComments),
    ("Resent-Date", Kind::HeldOutsideComments),
    ("Message-ID", Kind::HeldOutsideComments),
    ("Resent-Message-ID", Kind::HeldOutsideComments),
    ("In-Reply-To", Kind::HeldOutsideComments),
    ("References", Kind::HeldOutsideComments),
    ("MIME-Version", Kind::HeldOutsideComments),
    ("Content-Type", Kind::Parameters),
    ("Content-ID", Kind::HeldOutsideComments),
    ("Content-Disposition", Kind::Parameters),
    ("Content-Transfer-Encoding", Kind::HeldOutsideComments),
    ("Original-Recipient", Kind::Held),
    ("Final-Recipient", Kind::Held),
    ("Keywords", Kind::Held),
];

/// "Names compare without regard to letter case"
pub fn kind(name: &[u8]) -> Kind {
    for (known, kind) in &NAMES {
        if name.len() == known.len() && name.eq_ignore_ascii_case(known.as_bytes()) {
            return *kind;
        }
    }
    Kind::Other
}

/// [12]: "Message-ID to References in document 01's list"
const MESSAGE_IDS: [&str; 4] = ["Message-ID", "Resent-Message-ID", "In-Reply-To", "References"];

/// [12.9]: "The names that RFC 6857 lists for comments (3.2.2) outside document 01's lists"
const COMMENTED: [&str; 3] = ["Content-Language", "Accept-Language", "Auto-Submitted"];

/// [12]: "names outside document 01's lists go as Date if RFC 6857 lists them for comments, else as plain text"
pub fn mailbox_kind(name: &[u8]) -> Kind {
    let is_one = |names: &[&str]| names.iter().any(|known| name.eq_ignore_ascii_case(known.as_bytes()));
    match kind(name) {
        _ if is_one(&MESSAGE_IDS) => Kind::EncapsulatedOutsideComments,
        Kind::Other if is_one(&COMMENTED) => Kind::HeldOutsideComments,
        Kind::Other => Kind::Plain,
        // "Every other held name stays held as [1], [2] and [7] leave it."
        kind => kind,
    }
}

/// The first malformed line, its number and its start. "Each line ends in CRLF, has 1 to 998 bytes before it, holds no
/// NUL, lone CR or lone LF, and is UTF-8."
pub fn check(header: &[u8]) -> Result<(), (usize, usize)> {
    // A CRLF is inside no character, so a line is UTF-8 when the first fault of the whole header is not in it.
    let good = valid_len(header);
    let mut number = 0;
    let mut start = 0;
    while start < header.len() {
        // The first CR, LF or NUL has to be the CR of a CRLF. No other byte up to CR ends a line.
        let mut end = find(header, start, |b| b <= b'\r');
        while end < header.len() && !matches!(header[end], b'\r' | b'\n' | 0) {
            end = find(header, end + 1, |b| b <= b'\r');
        }
        let ended = header.get(end) == Some(&b'\r') && header.get(end + 1) == Some(&b'\n');
        let len = end - start;
        if !ended || len == 0 || len > LINE || end > good {
            return Err((number, start));
        }
        // "It is a continuation (starts with space or TAB; not the first line) or a name of 1 to 76 bytes 33 to 126
        // without colon, then a colon."
        let continuation = is_blank(header[start]) && number > 0;
        if !continuation && name_end(&header[start..end]).is_none() {
            return Err((number, start));
        }
        number += 1;
        start = end + 2;
    }
    Ok(())
}

pub fn is_blank(b: u8) -> bool {
    b == b' ' || b == b'\t'
}

/// The place of the colon after the name at the front.
fn name_end(line: &[u8]) -> Option<usize> {
    let mut at = 0;
    while at < line.len() && at <= NAME {
        match line[at] {
            b':' => return if at > 0 { Some(at) } else { None },
            33..=126 => at += 1,
            _ => return None,
        }
    }
    None
}

/// A field of a well-formed header whose value is not ASCII.
pub struct Field<'a> {
    /// Where it begins in the header, and where the next one does.
    pub start: usize,
    pub end: usize,
    pub name: &'a [u8],
    /// What follows the colon, without the last CRLF.
    pub value: &'a [u8],
}

/// The first field from `from` on whose value is not ASCII; `from` begins a field.
pub fn next_non_ascii(header: &[u8], from: usize) -> Option<Field<'_>> {
    let place = find(header, from, |b| b >= 128);
    if place == header.len() {
        return None;
    }
    // A field begins after a line break with no space or TAB behind it.
    let mut start = place;
    while start > from && (header[start - 1] != b'\n' || is_blank(header[start])) {
        start -= 1;
    }
    let mut end = place;
    loop {
        end = find(header, end, |b| b == b'\n') + 1;
        if end >= header.len() || !is_blank(header[end]) {
            break;
        }
    }
    let colon = start + name_end(&header[start..end])?;
    Some(Field { start, end, name: &header[start..colon], value: &header[colon + 1..end - 2] })
}

/// The number of the line that begins at `start`.
pub fn line_number(header: &[u8], start: usize) -> usize {
    header[..start].iter().filter(|&&b| b == b'\n').count()
}

impl<'a> Field<'a> {
    /// "The text of a field is its value with each CRLF before a continuation removed, then without leading spaces
    /// and TABs." Here still with the CRLFs inside, each of which stands before a continuation.
    pub fn folded_text(&self) -> &'a [u8] {
        let mut text = self.value;
        while let [b' ' | b'\t' | b'\r' | b'\n', rest @ ..] = text {
            text = rest;
        }
        text
    }
}

/// The parts of a folded text between its CRLFs.
pub fn unfolded(folded: &[u8], mut each: impl FnMut(&[u8])) {
    let mut start = 0;
    while start < folded.len() {
        let end = find(folded, start, |b| b == b'\r');
        each(&folded[start..end]);
        start = end + 2;
    }
}
