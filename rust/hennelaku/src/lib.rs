//! Safe calls of libhennelaku, which downgrades a mail envelope and header to ASCII by RFC 5504.
//!
//! ```
//! let envelope = "MAIL FROM:<é@example.org> ALT-ADDRESS=e+2Bx@example.org\r\nRCPT TO:<b@example.net>\r\n";
//! let header = "Subject: é\r\n";
//!
//! match hennelaku::downgrade_to_vec(hennelaku::Setting::Spool, envelope.as_bytes(), header.as_bytes()) {
//!     Ok(message) => assert!(message.envelope.starts_with(b"MAIL FROM:<e+x@example.org>\r\n")),
//!     Err(refusal) => println!("{} {refusal}", refusal.reply().code),
//! }
//! ```
//!
//! hennelaku.h and the manual page hennelaku_downgrade(3) say what becomes of each header field and what each refusal means.

use std::ffi::{c_char, CStr};
use std::fmt;
use std::ops::Range;

/// The version of hennelaku.h that this crate is written for.
pub const VERSION: u32 = 400;

/// Bytes of an envelope and of a header, at most; longer ones are refused.
pub const MAX_ENVELOPE: usize = 16_384;
pub const MAX_HEADER: usize = 32_768;

/// Buffers that suffice for every message. A call with such a header buffer is also the fastest.
pub const ENVELOPE_ROOM_MAX: usize = MAX_ENVELOPE;
pub const HEADER_ROOM_MAX: usize = 2_642_040;

/// A header buffer that suffices for a header of so many bytes.
pub const fn header_room_for(header_len: usize) -> usize {
    if header_len < MAX_HEADER {
        80 * header_len + 20_600
    } else {
        HEADER_ROOM_MAX
    }
}

/// The C calls as hennelaku.h declares them; the functions of this crate are safe ones over them.
pub mod c {
    use std::ffi::c_char;

    /// `hennelaku_answer`, member by member.
    #[repr(C)]
    pub struct Answer {
        pub number: u32,
        pub input: u32,
        pub place: usize,
        pub offset: usize,
        pub envelope_len: usize,
        pub header_len: usize,
    }

    /// `hennelaku_mailbox_answer`, member by member.
    #[repr(C)]
    pub struct MailboxAnswer {
        pub number: u32,
        pub place: usize,
        pub offset: usize,
        pub length: usize,
    }

    /// `hennelaku_read_answer`, member by member.
    #[repr(C)]
    pub struct ReadAnswer {
        pub number: u32,
        pub start: usize,
        pub next: usize,
        pub length: usize,
    }

    /// `hennelaku_reply`, member by member.
    #[repr(C)]
    pub struct Reply {
        pub code: u32,
        pub enhanced: *const c_char,
        pub text: *const c_char,
    }

    extern "C" {
        pub fn hennelaku_version() -> u32;
        pub fn hennelaku_number_text(number: u32) -> *const c_char;
        pub fn hennelaku_smtp_reply(number: u32) -> Reply;
        pub fn hennelaku_downgrade(
            setting: u64,
            envelope: *const u8,
            envelope_len: usize,
            header: *const u8,
            header_len: usize,
            envelope_buffer: *mut u8,
            envelope_room: usize,
            header_buffer: *mut u8,
            header_room: usize,
        ) -> Answer;
        pub fn hennelaku_downgrade_batch(
            setting: u64,
            input: *const u8,
            input_len: usize,
            records: *mut u32,
            records_len: usize,
            envelope_buffer: *mut u8,
            envelope_room: usize,
            header_buffer: *mut u8,
            header_room: usize,
        );
        pub fn hennelaku_downgrade_mailbox(
            header: *const u8,
            header_len: usize,
            buffer: *mut u8,
            room: usize,
        ) -> MailboxAnswer;
        pub fn hennelaku_read_downgraded(
            header: *const u8,
            header_len: usize,
            place: usize,
            buffer: *mut u8,
            room: usize,
        ) -> ReadAnswer;
    }
}

/// Why a message was refused; the values are the library's numbers.
#[derive(Clone, Copy, Debug, PartialEq, Eq, Hash)]
#[non_exhaustive]
#[repr(u32)]
pub enum Reason {
    /// The envelope or the header is over its limit.
    TooLong = 1,
    /// An envelope line is malformed or missing.
    EnvelopeLine = 2,
    /// A path is not ASCII and has no ALT-ADDRESS.
    NoAltAddress = 3,
    /// An ALT-ADDRESS stands beside an ASCII path, or does not spell an ASCII address.
    BadAltAddress = 4,
    /// A header line is malformed.
    HeaderLine = 5,
    /// An ORCPT or a held header field holds non-ASCII.
    Held = 6,
    /// The outgoing envelope is longer than its buffer.
    EnvelopeRoom = 7,
    /// The outgoing header is longer than its buffer.
    HeaderRoom = 8,
    /// A record's envelope or header goes past the end of the input of a batch.
    Range = 9,
    /// An ALT-ADDRESS stands in a current message.
    AltAddressRetired = 10,
}

const REASONS: [Reason; 10] = [
    Reason::TooLong,
    Reason::EnvelopeLine,
    Reason::NoAltAddress,
    Reason::BadAltAddress,
    Reason::HeaderLine,
    Reason::Held,
    Reason::EnvelopeRoom,
    Reason::HeaderRoom,
    Reason::Range,
    Reason::AltAddressRetired,
];

impl Reason {
    /// The reason with a number that the library answered.
    fn of(number: u32) -> Reason {
        let found = REASONS.into_iter().find(|reason| reason.number() == number);
        found.unwrap_or_else(|| panic!("libhennelaku answered {number}"))
    }

    /// The library's number.
    pub fn number(self) -> u32 {
        self as u32
    }

    /// What a server says to its client.
    pub fn reply(self) -> Reply {
        // SAFETY: the call takes any number.
        let reply = unsafe { c::hennelaku_smtp_reply(self.number()) };
        // SAFETY: the library's texts are never null and last as long as the program.
        unsafe { Reply { code: reply.code, enhanced: text(reply.enhanced), text: text(reply.text) } }
    }
}

impl fmt::Display for Reason {
    fn fmt(&self, f: &mut fmt::Formatter<'_>) -> fmt::Result {
        // SAFETY: the call takes any number; its text is never null and lasts as long as the program.
        f.write_str(unsafe { text(c::hennelaku_number_text(self.number())) })
    }
}

/// # Safety
/// `at` is that of a text of ASCII with a NUL at its end, which lasts as long as the program.
unsafe fn text(at: *const c_char) -> &'static str {
    CStr::from_ptr(at).to_str().expect("the library's texts are ASCII")
}

/// A reply of SMTP: the code of RFC 5321, the enhanced code of RFC 3463, and a text.
#[derive(Clone, Copy, Debug, PartialEq, Eq)]
pub struct Reply {
    pub code: u32,
    pub enhanced: &'static str,
    pub text: &'static str,
}

/// Where a message is from.
#[derive(Clone, Copy, Debug, PartialEq, Eq, Hash)]
#[repr(u64)]
pub enum Setting {
    /// From the spool: alternatives may be named.
    Spool = 0,
    /// By RFC 6531, which has no alternatives.
    Current = 1,
}

/// The input that a refusal is about, or whose output has no room.
#[derive(Clone, Copy, Debug, PartialEq, Eq, Hash)]
pub enum Input {
    Envelope,
    Header,
}

/// A message that is not downgraded. No byte of either buffer has changed.
#[derive(Clone, Copy, Debug, PartialEq, Eq)]
pub struct Refusal {
    pub reason: Reason,
    pub input: Input,
    /// A line from 0; for [`Reason::EnvelopeRoom`] and [`Reason::HeaderRoom`] the length that is needed.
    pub place: usize,
    /// The byte that tells why, from the start of the input; 0 where none does.
    pub offset: usize,
}

impl Refusal {
    /// What a server says to its client.
    pub fn reply(&self) -> Reply {
        self.reason.reply()
    }
}

impl fmt::Display for Refusal {
    fn fmt(&self, f: &mut fmt::Formatter<'_>) -> fmt::Result {
        let input = match self.input {
            Input::Envelope => "envelope",
            Input::Header => "header",
        };
        write!(f, "refused by {}: {}; ", self.reason.number(), self.reason)?;
        match self.reason {
            Reason::TooLong => write!(f, "the {input}"),
            Reason::EnvelopeRoom | Reason::HeaderRoom => write!(f, "it needs {} bytes", self.place),
            _ => write!(f, "line {} and byte {} of the {input}, from 0", self.place, self.offset),
        }
    }
}

impl std::error::Error for Refusal {}

/// How many bytes were written to each buffer.
#[derive(Clone, Copy, Debug, PartialEq, Eq)]
pub struct Lengths {
    pub envelope: usize,
    pub header: usize,
}

/// The version of the library that is linked.
pub fn version() -> u32 {
    // SAFETY: the call takes nothing.
    unsafe { c::hennelaku_version() }
}

/// The answer of a call, in Rust's terms.
fn result(answer: c::Answer) -> Result<Lengths, Refusal> {
    if answer.number == 0 {
        return Ok(Lengths { envelope: answer.envelope_len, header: answer.header_len });
    }
    Err(Refusal {
        reason: Reason::of(answer.number),
        input: if answer.input == 1 { Input::Envelope } else { Input::Header },
        place: answer.place,
        offset: answer.offset,
    })
}

/// Ends the program where the library's calls are not those that this crate declares.
fn check_version() {
    assert_eq!(version(), VERSION, "libhennelaku is of another version than this crate");
}

/// Downgrades a message into two buffers. The bytes past the lengths, and after a refusal all bytes, are as they were.
///
/// # Panics
/// Where the library that is linked is not of [`VERSION`]: its answer may have other members.
pub fn downgrade(
    setting: Setting,
    envelope: &[u8],
    header: &[u8],
    envelope_buffer: &mut [u8],
    header_buffer: &mut [u8],
) -> Result<Lengths, Refusal> {
    check_version();
    // SAFETY: each pointer comes from a slice with its length; the two buffers are apart from all others. The answer has the
    // members of this version.
    result(unsafe {
        c::hennelaku_downgrade(
            setting as u64,
            envelope.as_ptr(),
            envelope.len(),
            header.as_ptr(),
            header.len(),
            envelope_buffer.as_mut_ptr(),
            envelope_buffer.len(),
            header_buffer.as_mut_ptr(),
            header_buffer.len(),
        )
    })
}

/// An outgoing message, all ASCII.
#[derive(Clone, Debug, PartialEq, Eq)]
pub struct Downgraded {
    pub envelope: Vec<u8>,
    pub header: Vec<u8>,
}

/// Downgrades a message into buffers of its own, which always suffice.
///
/// # Panics
/// As [`downgrade`].
pub fn downgrade_to_vec(setting: Setting, envelope: &[u8], header: &[u8]) -> Result<Downgraded, Refusal> {
    let mut message = Downgraded {
        envelope: vec![0; envelope.len().min(ENVELOPE_ROOM_MAX)],
        header: vec![0; header_room_for(header.len())],
    };
    let lengths = downgrade(setting, envelope, header, &mut message.envelope, &mut message.header)?;
    message.envelope.truncate(lengths.envelope);
    message.header.truncate(lengths.header);
    message.header.shrink_to_fit();
    Ok(message)
}

/// A message of a batch: the nine numbers of a record, of which the call reads the first four and writes the others.
#[derive(Clone, Copy, Debug, Default, PartialEq, Eq)]
#[repr(C)]
pub struct Record {
    /// Where the envelope lies in the input.
    pub envelope_start: u32,
    pub envelope_len: u32,
    /// Where the header lies in the input.
    pub header_start: u32,
    pub header_len: u32,
    /// 0, or the number of a [`Reason`].
    pub number: u32,
    pub place: u32,
    pub offset: u32,
    /// Bytes written to each buffer, or 0.
    pub out_envelope_len: u32,
    pub out_header_len: u32,
}

/// How many numbers of 32 bits a record has.
const RECORD_SIZE: usize = 9;
const _: () = assert!(std::mem::size_of::<Record>() == RECORD_SIZE * std::mem::size_of::<u32>());

/// A message of a batch that is not downgraded. Place and offset are as in [`Refusal`], from the start of the message's own
/// envelope or header. For [`Reason::Held`] a single call tells which of the two is meant.
#[derive(Clone, Copy, Debug, PartialEq, Eq)]
pub struct RecordRefusal {
    pub reason: Reason,
    pub place: usize,
    pub offset: usize,
}

impl Record {
    /// A message by where its envelope and its header lie in the input.
    pub fn new(envelope: Range<u32>, header: Range<u32>) -> Record {
        Record {
            envelope_start: envelope.start,
            envelope_len: envelope.end.saturating_sub(envelope.start),
            header_start: header.start,
            header_len: header.end.saturating_sub(header.start),
            ..Record::default()
        }
    }

    /// What the call answered for it.
    pub fn result(&self) -> Result<Lengths, RecordRefusal> {
        if self.number == 0 {
            return Ok(Lengths { envelope: self.out_envelope_len as usize, header: self.out_header_len as usize });
        }
        Err(RecordRefusal { reason: Reason::of(self.number), place: self.place as usize, offset: self.offset as usize })
    }
}

/// Downgrades many messages of one input. The outputs stand one after another in the two buffers, in the order of the records;
/// each record is answered as a single call is that is given the room left. A refused record takes no room.
///
/// # Panics
/// As [`downgrade`].
pub fn downgrade_batch(
    setting: Setting,
    input: &[u8],
    records: &mut [Record],
    envelope_buffer: &mut [u8],
    header_buffer: &mut [u8],
) {
    check_version();
    // SAFETY: each pointer comes from a slice; a record is nine numbers of 32 bits in a row. Records and buffers are apart from
    // all others.
    unsafe {
        c::hennelaku_downgrade_batch(
            setting as u64,
            input.as_ptr(),
            input.len(),
            records.as_mut_ptr().cast(),
            records.len() * RECORD_SIZE,
            envelope_buffer.as_mut_ptr(),
            envelope_buffer.len(),
            header_buffer.as_mut_ptr(),
            header_buffer.len(),
        )
    }
}

/// Downgrades the header of a stored message, by RFC 6857, for a program that knows only ASCII; how many bytes were written. The
/// bytes past them, and after a refusal all bytes, are as they were. Of the reasons [`Reason::TooLong`], [`Reason::HeaderLine`],
/// [`Reason::Held`] and [`Reason::HeaderRoom`] are given, and the input is always the header.
///
/// # Panics
/// As [`downgrade`].
pub fn downgrade_mailbox(header: &[u8], buffer: &mut [u8]) -> Result<usize, Refusal> {
    check_version();
    // SAFETY: each pointer comes from a slice with its length; the buffer is apart from the header.
    let answer =
        unsafe { c::hennelaku_downgrade_mailbox(header.as_ptr(), header.len(), buffer.as_mut_ptr(), buffer.len()) };
    if answer.number == 0 {
        return Ok(answer.length);
    }
    let (place, offset) = (answer.place, answer.offset);
    Err(Refusal { reason: Reason::of(answer.number), input: Input::Header, place, offset })
}

/// Downgrades the header of a stored message into a buffer of its own, which always suffices.
///
/// # Panics
/// As [`downgrade`].
pub fn downgrade_mailbox_to_vec(header: &[u8]) -> Result<Vec<u8>, Refusal> {
    let mut out = vec![0; header_room_for(header.len())];
    let length = downgrade_mailbox(header, &mut out)?;
    out.truncate(length);
    out.shrink_to_fit();
    Ok(out)
}

/// Why the text of a Downgraded field is not shown; the values are the library's numbers.
#[derive(Clone, Copy, Debug, PartialEq, Eq, Hash)]
pub enum ReadRefusal {
    /// The field is malformed.
    Field,
    /// An encoded word is malformed or of another encoding.
    Word,
    /// An encoded word has another charset than UTF-8.
    Charset,
    /// The bytes of an encoded word are not UTF-8.
    Utf8,
    /// The buffer is short; so many bytes are needed.
    Room(usize),
}

impl fmt::Display for ReadRefusal {
    fn fmt(&self, f: &mut fmt::Formatter<'_>) -> fmt::Result {
        match self {
            ReadRefusal::Field => f.write_str("the field is malformed"),
            ReadRefusal::Word => f.write_str("an encoded word is malformed or of another encoding"),
            ReadRefusal::Charset => f.write_str("an encoded word has another charset"),
            ReadRefusal::Utf8 => f.write_str("the bytes of an encoded word are not UTF-8"),
            ReadRefusal::Room(needed) => write!(f, "the text needs {needed} bytes"),
        }
    }
}

impl std::error::Error for ReadRefusal {}

/// Reads the first Downgraded field that begins at `place` or later: where it stands, and how many bytes of the buffer its text
/// has. None where no field begins there. Past the text, and after a refusal, the buffer is as it was. A buffer as long as the
/// header suffices for every text.
///
/// # Panics
/// As [`downgrade`].
pub fn read_downgraded_at(
    header: &[u8],
    place: usize,
    buffer: &mut [u8],
) -> Option<(Range<usize>, Result<usize, ReadRefusal>)> {
    check_version();
    // SAFETY: each pointer comes from a slice with its length; the buffer is apart from the header.
    let answer = unsafe {
        c::hennelaku_read_downgraded(header.as_ptr(), header.len(), place, buffer.as_mut_ptr(), buffer.len())
    };
    let text = match answer.number {
        0 => Ok(answer.length),
        1 => Err(ReadRefusal::Field),
        2 => Err(ReadRefusal::Word),
        3 => Err(ReadRefusal::Charset),
        4 => Err(ReadRefusal::Utf8),
        5 => Err(ReadRefusal::Room(answer.length)),
        6 => return None,
        number => panic!("libhennelaku answered {number}"),
    };
    Some((answer.start..answer.next, text))
}

/// A Downgraded field of a header.
#[derive(Clone, Debug, PartialEq, Eq)]
pub struct DowngradedField<'a> {
    /// Its lines, each with its CRLF.
    pub lines: &'a [u8],
    /// What its encoded words and other text stand for: UTF-8, perhaps with control characters.
    pub text: Result<Vec<u8>, ReadRefusal>,
}

/// The Downgraded fields of a header, in order; of [`read_downgraded`].
#[derive(Clone, Debug)]
pub struct DowngradedFields<'a> {
    header: &'a [u8],
    place: usize,
    buffer: Vec<u8>,
}

/// Reads all Downgraded fields of a header: those that a call of this library added show the text that was encoded.
///
/// ```no_run
/// for field in hennelaku::read_downgraded(b"Downgraded-X: =?UTF-8?Q?=C3=A9?=\r\n") {
///     assert_eq!(field.text.as_deref(), Ok("é".as_bytes()));
/// }
/// ```
///
/// # Panics
/// The iterator panics as [`downgrade`].
pub fn read_downgraded(header: &[u8]) -> DowngradedFields<'_> {
    DowngradedFields { header, place: 0, buffer: vec![0; header.len()] }
}

impl<'a> Iterator for DowngradedFields<'a> {
    type Item = DowngradedField<'a>;

    fn next(&mut self) -> Option<DowngradedField<'a>> {
        let (range, text) = read_downgraded_at(self.header, self.place, &mut self.buffer)?;
        self.place = range.end;
        Some(DowngradedField { lines: &self.header[range], text: text.map(|length| self.buffer[..length].to_vec()) })
    }
}
