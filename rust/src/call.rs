//! The downgrade call: sizes (1), the order of refusals, room (7, 8), the outgoing header.
//! Written from document 01, Answers by number, Header lines and Address fields, and the requests named below.

use crate::address_list;
use crate::comment;
use crate::envelope;
use crate::header::{self, Field, Kind};
use crate::offset;
use crate::parameter;
use crate::received;
use crate::sink::{Counter, Sink, Writer};
use crate::utf8::find;
use crate::words::row_after_name;

#[derive(Clone, Copy, PartialEq, Eq, Debug)]
pub struct Answer {
    pub number: u32,
    /// Which input the answer is about: `ENVELOPE`, `HEADER` or `NEITHER`.
    pub input: u32,
    pub place: usize,
    /// From the start of that input.
    pub offset: usize,
    pub envelope_len: usize,
    pub header_len: usize,
}

/// [13]: "The caller says by a number whether a message is from the spool (0), treated as today, or current (any other)."
#[derive(Clone, Copy, PartialEq, Eq, Debug)]
pub enum Setting {
    Spool,
    Current,
}

impl Setting {
    pub fn new(number: u64) -> Setting {
        if number == 0 {
            Setting::Spool
        } else {
            Setting::Current
        }
    }
}

/// Whose rules a header is downgraded by.
#[derive(Clone, Copy, PartialEq, Eq, Debug)]
pub enum Profile {
    /// Document 01, and [13]'s setting.
    Relay(Setting),
    /// [12].
    Mailbox,
}

impl Profile {
    /// [13]: in a current message "an address with an inner alternative no longer fits an address field". [12]: "an inner
    /// alternative does not fit".
    pub fn has_alternatives(self) -> bool {
        self == Profile::Relay(Setting::Spool)
    }

    pub fn kind(self, name: &[u8]) -> Kind {
        match self {
            Profile::Relay(_) => header::kind(name),
            Profile::Mailbox => header::mailbox_kind(name),
        }
    }
}

pub const NEITHER: u32 = 0;
pub const ENVELOPE: u32 = 1;
pub const HEADER: u32 = 2;

/// 1: "envelope over 16,384 bytes, or header over 32,768"
const LONGEST_ENVELOPE: usize = 16_384;
const LONGEST_HEADER: usize = 32_768;

/// "A refusal changes no byte of either buffer and gives both lengths as 0."
fn refuse(number: u32, input: u32, place: usize, offset: usize) -> Answer {
    Answer { number, input, place, offset, envelope_len: 0, header_len: 0 }
}

/// "Order: 1 (envelope first); then 2, 3 and 4 as the first envelope line at fault, the lowest number within one
/// line; then the first 5; then 6, ORCPT lines before header fields (a field's place is its first line); then 7;
/// then 8." [13.3]: in a current message 10 stands for 4.
pub fn downgrade(
    setting: u64,
    envelope: &[u8],
    header: &[u8],
    envelope_buffer: &mut [u8],
    header_buffer: &mut [u8],
) -> Answer {
    let setting = Setting::new(setting);
    if envelope.len() > LONGEST_ENVELOPE {
        return refuse(1, ENVELOPE, 0, 0);
    }
    if header.len() > LONGEST_HEADER {
        return refuse(1, HEADER, 1, 0);
    }
    let envelope = match envelope::check(envelope, setting) {
        Ok(envelope) => envelope,
        Err(refusal) => return refuse(refusal.number, ENVELOPE, refusal.line, refusal.offset),
    };
    if let Some((line, offset)) = malformed(header) {
        return refuse(5, HEADER, line, offset);
    }
    if let Some((line, offset)) = envelope.held {
        return refuse(6, ENVELOPE, line, offset);
    }
    // Both outputs are counted before a byte is written.
    let mut job = Job { profile: Profile::Relay(setting), header, scratch: Vec::new() };
    let mut header_count = Counter::default();
    envelope.first_fields(&mut header_count);
    if let Err((line, offset)) = job.count(&mut header_count) {
        return refuse(6, HEADER, line, offset);
    }
    let mut envelope_count = Counter::default();
    envelope.write(&mut envelope_count);
    if envelope_count.len > envelope_buffer.len() {
        return refuse(7, ENVELOPE, envelope_count.len, 0);
    }
    if header_count.len > header_buffer.len() {
        return refuse(8, HEADER, header_count.len, 0);
    }
    envelope.write(&mut Writer { buffer: envelope_buffer, at: 0 });
    let mut writer = Writer { buffer: header_buffer, at: 0 };
    envelope.first_fields(&mut writer);
    job.write(&mut writer);
    let (envelope_len, header_len) = (envelope_count.len, header_count.len);
    Answer { number: 0, input: NEITHER, place: 0, offset: 0, envelope_len, header_len }
}

/// What the mailbox's call answers.
#[derive(Clone, Copy, PartialEq, Eq, Debug)]
pub struct MailboxAnswer {
    pub number: u32,
    pub place: usize,
    pub offset: usize,
    pub length: usize,
}

/// [12]: "header only". [12.11]: "The answers are 0, 1, 5, 6, 8, in this order, with [8]'s offset."
pub fn downgrade_mailbox(header: &[u8], buffer: &mut [u8]) -> MailboxAnswer {
    let refuse = |number, place, offset| MailboxAnswer { number, place, offset, length: 0 };
    if header.len() > LONGEST_HEADER {
        return refuse(1, 1, 0);
    }
    if let Some((line, offset)) = malformed(header) {
        return refuse(5, line, offset);
    }
    let mut job = Job { profile: Profile::Mailbox, header, scratch: Vec::new() };
    let mut count = Counter::default();
    if let Err((line, offset)) = job.count(&mut count) {
        return refuse(6, line, offset);
    }
    if count.len > buffer.len() {
        return refuse(8, count.len, 0);
    }
    job.write(&mut Writer { buffer, at: 0 });
    MailboxAnswer { number: 0, place: 0, offset: 0, length: count.len }
}

/// The first malformed line, and the byte that tells why.
fn malformed(header: &[u8]) -> Option<(usize, usize)> {
    let (line, start) = header::check(header).err()?;
    let stop = offset::header_line(&header[start..], line, offset::LINE);
    Some((line, start + stop.expect("a malformed line stops somewhere").at))
}

/// 6: "a held name [..] carries non-ASCII"; some of them in places that do not hold them.
fn held(kind: Kind, field: &Field) -> bool {
    match kind {
        Kind::Held => true,
        Kind::HeldOutsideComments => comment::non_ascii_outside(field.value),
        Kind::Received => received::check(field.name.len(), field.value).is_err(),
        Kind::Parameters => parameter::check(field.value).is_err(),
        Kind::Address | Kind::Plain | Kind::EncapsulatedOutsideComments | Kind::Other => false,
    }
}

fn write_name(sink: &mut impl Sink, field: &Field) {
    sink.put(field.name);
    sink.put(b":");
}

/// "`Downgraded-` before the name, colon, encoded words of the text"
fn encapsulate(sink: &mut impl Sink, field: &Field, text: &[u8]) {
    write_words(sink, b"Downgraded-", field, text);
}

/// Name, colon, encoded words of the text. "A field ends with CRLF." [5.4]: the name counts with its `Downgraded-`.
fn write_words(sink: &mut impl Sink, before_name: &[u8], field: &Field, text: &[u8]) {
    sink.put(before_name);
    write_name(sink, field);
    row_after_name(sink, before_name.len() + field.name.len(), text);
    sink.put(b"\r\n");
}

/// The text of a field, in the scratch where it has folds.
fn text<'a>(field: &Field<'a>, scratch: &'a mut Vec<u8>) -> &'a [u8] {
    let folded = field.folded_text();
    if !folded.contains(&b'\r') {
        return folded;
    }
    scratch.clear();
    header::unfolded(folded, |part| scratch.extend_from_slice(part));
    scratch
}

/// What the outgoing header is made from, but for the relay's new first fields.
struct Job<'a> {
    profile: Profile,
    header: &'a [u8],
    /// For texts without their folds.
    scratch: Vec<u8>,
}

impl Job<'_> {
    /// The length of the outgoing header; where a field is held its line and, [8.5], "the field's first non-ASCII byte".
    fn count(&mut self, count: &mut Counter) -> Result<(), (usize, usize)> {
        self.write_header(count, held).map_err(|start| {
            let line = header::line_number(self.header, start);
            (line, find(self.header, start, |b| b >= 128))
        })
    }

    /// No field is held.
    fn write(&mut self, writer: &mut Writer) {
        let _ = self.write_header(writer, |_, _| false);
    }

    /// Each field downgraded. "A field whose value is ASCII is copied." Stops at a field that is held, with its place.
    fn write_header(&mut self, sink: &mut impl Sink, held: impl Fn(Kind, &Field) -> bool) -> Result<(), usize> {
        let header = self.header;
        let mut done = 0;
        while let Some(field) = header::next_non_ascii(header, done) {
            sink.put(&header[done..field.start]);
            let kind = self.profile.kind(field.name);
            if held(kind, &field) {
                return Err(field.start);
            }
            self.write_field(sink, kind, &field);
            done = field.end;
        }
        sink.put(&header[done..]);
        Ok(())
    }

    fn write_field(&mut self, sink: &mut impl Sink, kind: Kind, field: &Field) {
        match kind {
            Kind::Address => write_address_field(sink, self.profile, field, text(field, &mut self.scratch)),
            // "Plain text: name, colon, encoded words of the text."
            Kind::Plain => write_words(sink, b"", field, text(field, &mut self.scratch)),
            // [12]: "Message-ID to References in document 01's list are encapsulated if non-ASCII stands outside comments"
            Kind::EncapsulatedOutsideComments if comment::non_ascii_outside(field.value) => {
                encapsulate(sink, field, text(field, &mut self.scratch));
            }
            Kind::EncapsulatedOutsideComments | Kind::HeldOutsideComments | Kind::Received | Kind::Parameters => {
                write_name(sink, field);
                match kind {
                    Kind::Received => received::write_value(sink, field.value),
                    Kind::Parameters => parameter::write_value(sink, field.value),
                    _ => comment::write_value(sink, field.value),
                }
                sink.put(b"\r\n");
            }
            // Held before.
            Kind::Held => {}
            // "Every other name is encapsulated"
            Kind::Other => encapsulate(sink, field, text(field, &mut self.scratch)),
        }
    }
}

fn write_address_field(sink: &mut impl Sink, profile: Profile, field: &Field, text: &[u8]) {
    match address_list::replaces(text, profile) {
        // "Text that does not fit is encapsulated."
        None => encapsulate(sink, field, text),
        Some(replaces) => {
            write_name(sink, field);
            address_list::pieces(sink, text, profile);
            sink.put(b"\r\n");
            // "If any address was replaced or removed, a `Downgraded-` field with encoded words of the original
            // text follows the rewritten field." [12]: "no copies of address fields are added"
            if replaces && profile != Profile::Mailbox {
                encapsulate(sink, field, text);
            }
        }
    }
}
