//! Address fields: the grammar of their text, and the pieces of the rewritten value.
//! Written from document 01, Address fields, and the requests named below.

use crate::address::{address, word};
use crate::call::Profile;
use crate::comment::{self, comment_end, Part};
use crate::header::is_blank;
use crate::sink::Sink;
use crate::words::row;

/// "No word or address exceeds 900 bytes." [1]: no run of a comment either, unless it is dropped.
const LONGEST: usize = 900;

/// What a text is made of, in order.
pub trait Parts {
    fn phrase(&mut self, phrase: &[u8]);
    fn bare(&mut self, address: &[u8]);
    fn angle(&mut self, address: &[u8]);
    /// The second address of `<address <ASCII address>>`.
    fn alternative(&mut self, address: &[u8]);
    /// One of `, : ;`.
    fn mark(&mut self, mark: u8);
    fn comment(&mut self, comment: &[u8]);
    /// [4]: in place of a group's colon, its members and its semicolon, what stands between the two marks.
    fn removed_members(&mut self, members: &[u8]);
}

/// "The text must be a comma list of mailboxes or groups (`phrase : mailboxes ;`, perhaps none), with runs of spaces
/// and TABs allowed around `, : ; <` and at the end." [1]: comments "at the start of an address list and wherever
/// spaces may stand in it outside `< >` and phrases". None where the text does not fit.
pub fn list(text: &[u8], profile: Profile, parts: &mut impl Parts) -> Option<()> {
    let mut at = gap(text, 0, parts)?;
    loop {
        at = mailbox_or_group(text, at, profile, parts)?;
        at = gap(text, at, parts)?;
        if at == text.len() {
            return Some(());
        }
        at = mark(text, at, b',', parts)?;
    }
}

fn mailbox_or_group(text: &[u8], at: usize, profile: Profile, parts: &mut impl Parts) -> Option<usize> {
    match mailbox(text, at, profile, parts)? {
        Mailbox::End(end) => Some(end),
        Mailbox::Phrase(end) => group_from_colon(text, end, profile, parts),
    }
}

/// [4]: "If any member of a group has a non-ASCII address without an alternative, the whole group becomes the pieces
/// before its colon", which have come, and what stands for its members. [4.2]: "The list must fit before the rule is
/// used."
fn group_from_colon(text: &[u8], colon: usize, profile: Profile, parts: &mut impl Parts) -> Option<usize> {
    let mut look = Look::default();
    let semicolon = members(text, colon, profile, &mut look)?;
    if look.removed {
        // "everything between its colon and semicolon (spaces and TABs at both ends dropped)"
        let mut between = &text[colon + 1..semicolon];
        while let [b' ' | b'\t', rest @ ..] | [rest @ .., b' ' | b'\t'] = between {
            between = rest;
        }
        parts.removed_members(between);
        return gap(text, semicolon + 1, parts);
    }
    members(text, colon, profile, parts)?;
    mark(text, semicolon, b';', parts)
}

/// From a group's colon to its semicolon. A member is a mailbox: no group stands inside a group.
fn members(text: &[u8], colon: usize, profile: Profile, parts: &mut impl Parts) -> Option<usize> {
    let mut at = mark(text, colon, b':', parts)?;
    if text.get(at) == Some(&b';') {
        return Some(at);
    }
    loop {
        at = match mailbox(text, at, profile, parts)? {
            Mailbox::End(end) => gap(text, end, parts)?,
            Mailbox::Phrase(_) => return None,
        };
        if text.get(at) == Some(&b';') {
            return Some(at);
        }
        at = mark(text, at, b',', parts)?;
    }
}

enum Mailbox {
    /// Ends here.
    End(usize),
    /// A phrase, and behind it and its gap something other than `<`.
    Phrase(usize),
}

/// "A mailbox is a bare address, or an optional phrase and `<address>`, or with an alternative
/// `<address <ASCII address>>`, the first non-ASCII, at least one space or TAB between."
fn mailbox(text: &[u8], at: usize, profile: Profile, parts: &mut impl Parts) -> Option<Mailbox> {
    // No phrase has an `@` outside a quoted string, so what begins as an address is one.
    if let Some(end) = address(text, at) {
        parts.bare(within(text, at, end)?);
        return Some(Mailbox::End(end));
    }
    let mut at = at;
    if text.get(at) != Some(&b'<') {
        let end = phrase(text, at)?;
        parts.phrase(&text[at..end]);
        at = gap(text, end, parts)?;
        if text.get(at) != Some(&b'<') {
            return Some(Mailbox::Phrase(at));
        }
    }
    angle(text, at, profile, parts).map(Mailbox::End)
}

/// From `<` to behind its last `>`.
fn angle(text: &[u8], at: usize, profile: Profile, parts: &mut impl Parts) -> Option<usize> {
    let start = blanks(text, at + 1);
    let end = address(text, start)?;
    let first = within(text, start, end)?;
    if text.get(end) == Some(&b'>') {
        parts.angle(first);
        return Some(end + 1);
    }
    if !profile.has_alternatives() {
        return None;
    }
    let inner = blanks(text, end);
    if inner == end || text.get(inner) != Some(&b'<') || first.is_ascii() {
        return None;
    }
    let start = blanks(text, inner + 1);
    let end = address(text, start)?;
    let second = within(text, start, end)?;
    if !second.is_ascii() || !text[end..].starts_with(b">>") {
        return None;
    }
    parts.alternative(second);
    Some(end + 2)
}

/// "A phrase is words parted by one or more spaces or TABs"
fn phrase(text: &[u8], at: usize) -> Option<usize> {
    let mut end = word(text, at)?;
    within(text, at, end)?;
    loop {
        let next = blanks(text, end);
        if next == end || !begins_word(text, next) {
            return Some(end);
        }
        end = word(text, next)?;
        within(text, next, end)?;
    }
}

fn begins_word(text: &[u8], at: usize) -> bool {
    at < text.len() && !b"<>,:;@(".contains(&text[at])
}

/// A word or an address, if it is not too long.
fn within(text: &[u8], start: usize, end: usize) -> Option<&[u8]> {
    if end - start <= LONGEST {
        Some(&text[start..end])
    } else {
        None
    }
}

fn blanks(text: &[u8], at: usize) -> usize {
    let mut at = at;
    while at < text.len() && is_blank(text[at]) {
        at += 1;
    }
    at
}

/// Blanks and comments, as many as stand here. "An unclosed parenthesis encapsulates an address field", and so does
/// a run of more than 900 bytes that is not of "spaces and TABs only".
fn gap(text: &[u8], at: usize, parts: &mut impl Parts) -> Option<usize> {
    let mut at = blanks(text, at);
    while text.get(at) == Some(&b'(') {
        let end = comment_end(text, at)?;
        let mut fits = true;
        comment::parts(&text[at..end], |part| match part {
            Part::Run(run) if run.len() > LONGEST => fits &= is_dropped(run),
            _ => {}
        });
        if !fits {
            return None;
        }
        parts.comment(&text[at..end]);
        at = blanks(text, end);
    }
    Some(at)
}

/// "a run of spaces and TABs only is dropped". [1.6]: told from the bytes as they stand, so that an escaped space stays.
fn is_dropped(run: &[u8]) -> bool {
    run.iter().all(|&b| is_blank(b))
}

/// The mark that has to stand here, and the gap behind it.
fn mark(text: &[u8], at: usize, mark: u8, parts: &mut impl Parts) -> Option<usize> {
    if text.get(at) != Some(&mark) {
        return None;
    }
    parts.mark(mark);
    gap(text, at + 1, parts)
}

/// Looks for an address that is replaced or removed.
#[derive(Default)]
struct Look {
    replaced: bool,
    removed: bool,
}

impl Parts for Look {
    fn phrase(&mut self, _phrase: &[u8]) {}
    fn bare(&mut self, address: &[u8]) {
        self.removed |= !address.is_ascii();
    }
    fn angle(&mut self, address: &[u8]) {
        self.removed |= !address.is_ascii();
    }
    fn alternative(&mut self, _address: &[u8]) {
        self.replaced = true;
    }
    fn mark(&mut self, _mark: u8) {}
    // [1.10]: only addresses bring a copy.
    fn comment(&mut self, _comment: &[u8]) {}
    fn removed_members(&mut self, _members: &[u8]) {
        self.removed = true;
    }
}

/// None where the text does not fit; else whether any address is replaced or removed.
pub fn replaces(text: &[u8], profile: Profile) -> Option<bool> {
    let mut look = Look::default();
    list(text, profile, &mut look)?;
    Some(look.replaced || look.removed)
}

/// "The rewritten value is a row of pieces, each written straight after the piece before it as CRLF, space, piece"
struct Pieces<'a, S: Sink> {
    sink: &'a mut S,
    profile: Profile,
    /// The text of a phrase.
    text: Vec<u8>,
}

impl<S: Sink> Pieces<'_, S> {
    fn piece(&mut self, piece: &[u8]) {
        self.sink.put(b"\r\n ");
        self.sink.put(piece);
    }

    /// "Non-ASCII address with no alternative: `Internationalized Address`, its encoded words, `Removed:;`." [4] has
    /// the same words for the members of a group. [12]: "A mailbox with a non-ASCII address becomes its phrase, if any, its
    /// encoded address and `:;`", and "Groups follow [4] with `:;` and no other fixed words".
    fn removed(&mut self, text: &[u8]) {
        let (before, behind): (&[u8], &[u8]) = match self.profile {
            Profile::Relay(_) => (b"Internationalized Address", b"Removed:;"),
            Profile::Mailbox => (b"", b":;"),
        };
        if !before.is_empty() {
            self.piece(before);
        }
        row(self.sink, text);
        self.piece(behind);
    }
}

impl<S: Sink> Parts for Pieces<'_, S> {
    /// "ASCII phrase: each word as it stands, a piece each. Other phrase: encoded words of its words without quoting
    /// and escapes, joined by single spaces."
    fn phrase(&mut self, phrase: &[u8]) {
        if phrase.is_ascii() {
            words(phrase, |word| self.piece(word));
            return;
        }
        self.text.clear();
        let mut first = true;
        words(phrase, |word| {
            if !first {
                self.text.push(b' ');
            }
            first = false;
            add_unquoted(&mut self.text, word);
        });
        row(self.sink, &self.text);
    }

    /// "Address: bare or in `< >`; an alternative replaces the first."
    fn bare(&mut self, address: &[u8]) {
        if address.is_ascii() {
            self.piece(address);
        } else {
            self.removed(address);
        }
    }

    fn angle(&mut self, address: &[u8]) {
        if address.is_ascii() {
            self.alternative(address);
        } else {
            self.removed(address);
        }
    }

    fn alternative(&mut self, address: &[u8]) {
        self.piece(b"<");
        self.sink.put(address);
        self.sink.put(b">");
    }

    /// "`:` and `;` of a group are pieces. A comma joins the end of the piece before it."
    fn mark(&mut self, mark: u8) {
        if mark == b',' {
            self.sink.put(b",");
        } else {
            self.piece(&[mark]);
        }
    }

    /// [1]: "In an address field each parenthesis and each run is a piece"
    fn comment(&mut self, comment: &[u8]) {
        comment::parts(comment, |part| match part {
            Part::Parenthesis(b) => self.piece(&[b]),
            Part::Run(run) if is_dropped(run) => {}
            Part::Run(run) if run.is_ascii() => self.piece(run),
            Part::Run(run) => comment::write_run(self.sink, run),
        });
    }

    fn removed_members(&mut self, members: &[u8]) {
        self.removed(members);
    }
}

/// The words of a phrase.
fn words(phrase: &[u8], mut each: impl FnMut(&[u8])) {
    let mut at = 0;
    while let Some(end) = word(phrase, at) {
        each(&phrase[at..end]);
        at = blanks(phrase, end);
    }
}

/// A word "without quoting and escapes".
fn add_unquoted(text: &mut Vec<u8>, word: &[u8]) {
    let mut rest = match word {
        [b'"', inside @ .., b'"'] => inside,
        _ => return text.extend_from_slice(word),
    };
    while let Some(backslash) = rest.iter().position(|&b| b == b'\\') {
        text.extend_from_slice(&rest[..backslash]);
        // The byte behind a backslash stands for itself, also if it is another backslash.
        text.push(rest[backslash + 1]);
        rest = &rest[backslash + 2..];
    }
    text.extend_from_slice(rest);
}

/// The pieces of a text that fits.
pub fn pieces(sink: &mut impl Sink, text: &[u8], profile: Profile) {
    let _ = list(text, profile, &mut Pieces { sink, profile, text: Vec::new() });
}
