//! The call: sizes (1), the order of refusals, room (7, 8), the outgoing header.
use crate::address_list::Parts;
use crate::envelope::{self, Envelope};
use crate::header::{self, Field, Fields, Kind};
use crate::out::Out;
use crate::simd::next_high;
use crate::words::row_after_name;
use crate::{comment, offset, parameter, received};
use std::mem::MaybeUninit;

#[derive(Clone, Copy, PartialEq, Eq, Debug)]
pub struct Answer {
    pub number: u32,
    pub input: u32,
    pub place: usize,
    pub offset: usize,
    pub envelope_len: usize,
    pub header_len: usize,
}

#[cold]
fn refuse(number: u32, input: u32, place: usize, offset: usize) -> Answer {
    Answer { number, input, place, offset, envelope_len: 0, header_len: 0 }
}

pub fn downgrade(
    setting: u64,
    envelope: &[u8],
    header: &[u8],
    envelope_buffer: &mut [u8],
    header_buffer: &mut [u8],
) -> Answer {
    if envelope.len() > 16_384 {
        return refuse(1, 1, 0, 0);
    }
    if header.len() > 32_768 {
        return refuse(1, 2, 1, 0);
    }
    let envelope = match envelope::check(envelope, setting != 0) {
        Ok(envelope) => envelope,
        Err(refusal) => return refuse(refusal.number, 1, refusal.line, refusal.offset),
    };
    let mut fields = Fields::new();
    if let Err((line, start)) = header::check(header, &mut fields) {
        let stop = offset::header_line(&header[start..], line, offset::LINE);
        return refuse(5, 2, line, start + stop.expect("a malformed line stops somewhere").at);
    }
    if let Some((line, offset)) = envelope.held {
        return refuse(6, 1, line, offset);
    }
    let fields = fields.as_slice();
    if let Some(field) = fields.iter().find(|field| is_held(field, header)) {
        return refuse(6, 2, header::line_number(header, field.start()), next_high(header, field.start()));
    }
    if envelope.len > envelope_buffer.len() {
        return refuse(7, 1, envelope.len, 0);
    }
    let profile = if setting == 0 { Profile::Spool } else { Profile::Current };
    let job = Job { profile, envelope: Some(&envelope), header, fields };
    let header_len = job.write_within(header_buffer);
    if header_len > header_buffer.len() {
        return refuse(8, 2, header_len, 0);
    }
    envelope.write(envelope_buffer);
    Answer { number: 0, input: 0, place: 0, offset: 0, envelope_len: envelope.len, header_len }
}

#[derive(Clone, Copy, PartialEq, Eq, Debug)]
pub struct MailboxAnswer {
    pub number: u32,
    pub place: usize,
    pub offset: usize,
    pub length: usize,
}

/// The mailbox profile: a header alone.
pub fn downgrade_mailbox(header: &[u8], buffer: &mut [u8]) -> MailboxAnswer {
    let refuse = |number, place, offset| MailboxAnswer { number, place, offset, length: 0 };
    if header.len() > 32_768 {
        return refuse(1, 1, 0);
    }
    let mut fields = Fields::new();
    if let Err((line, start)) = header::check(header, &mut fields) {
        let stop = offset::header_line(&header[start..], line, offset::LINE);
        return refuse(5, line, start + stop.expect("a malformed line stops somewhere").at);
    }
    let fields = fields.as_mut_slice();
    for field in fields.iter_mut() {
        field.kind = mailbox_kind(field, header);
    }
    if let Some(field) = fields.iter().find(|field| is_held(field, header)) {
        return refuse(6, header::line_number(header, field.start()), next_high(header, field.start()));
    }
    let length = Job { profile: Profile::Mailbox, envelope: None, header, fields }.write_within(buffer);
    if length > buffer.len() {
        return refuse(8, length, 0);
    }
    MailboxAnswer { number: 0, place: 0, offset: 0, length }
}

/// The kind of the relay's rules by which the field is written.
fn mailbox_kind(field: &Field, header: &[u8]) -> Kind {
    let name = field.name(header);
    let is_one = |names: &[&str]| names.iter().any(|known| name.eq_ignore_ascii_case(known.as_bytes()));
    match field.kind {
        Kind::Other if is_one(&["Content-Language", "Accept-Language", "Auto-Submitted"]) => Kind::HeldOutsideComments,
        Kind::Other => Kind::Plain,
        Kind::HeldOutsideComments
            if is_one(&["Message-ID", "Resent-Message-ID", "In-Reply-To", "References"])
                && comment::non_ascii_outside(field.value(header)) =>
        {
            Kind::Other
        }
        kind => kind,
    }
}

fn is_held(field: &Field, header: &[u8]) -> bool {
    match field.kind {
        Kind::Held => true,
        Kind::HeldOutsideComments => comment::non_ascii_outside(field.value(header)),
        Kind::Received => received::is_held(field.name(header).len(), field.value(header)),
        Kind::Parameters => parameter::is_held(field.value(header)),
        Kind::Address | Kind::Plain | Kind::Other => false,
    }
}

#[derive(Clone, Copy, PartialEq, Eq)]
pub enum Profile {
    Spool,
    Current,
    Mailbox,
}

struct Job<'a> {
    profile: Profile,
    envelope: Option<&'a Envelope<'a>>,
    header: &'a [u8],
    fields: &'a [Field],
}

impl Job<'_> {
    /// Nothing is written where the room is short; the length of all.
    #[inline(always)]
    fn write_within(&self, to: &mut [u8]) -> usize {
        // A parameter may grow to 75 times its length.
        let growth = if self.fields.iter().any(|field| field.kind == Kind::Parameters) { 80 } else { 30 };
        if to.len() >= growth * self.header.len() + 20_600 {
            return self.write(to);
        }
        // Written beside the buffer, and then copied.
        match self.header.len() {
            0..=2000 => self.beside::<8192>(to),
            2001..=8000 => self.beside::<32_768>(to),
            _ => self.beside::<131_072>(to),
        }
    }

    /// Nothing is written where the room is short.
    #[inline(never)]
    fn beside<const N: usize>(&self, to: &mut [u8]) -> usize {
        let mut scratch = [MaybeUninit::<u8>::uninit(); N];
        // SAFETY: only what has been written is read.
        let scratch = unsafe { std::slice::from_raw_parts_mut(scratch.as_mut_ptr() as *mut u8, N) };
        let len = self.write(scratch);
        if len > to.len() {
            return len;
        }
        if len <= N {
            to[..len].copy_from_slice(&scratch[..len]);
        } else {
            self.write(to);
        }
        len
    }

    /// As far as it fits; the length of all.
    #[inline(never)]
    fn write(&self, to: &mut [u8]) -> usize {
        let mut out = Out { buf: to, at: 0 };
        let header = self.header;
        if let Some(envelope) = self.envelope {
            envelope.first_fields(&mut out);
        }
        let mut done = 0;
        for field in self.fields {
            out.copy(&header[done..field.start()]);
            done = field.end();
            let name = field.name(header);
            match field.kind {
                Kind::HeldOutsideComments | Kind::Received | Kind::Parameters => {
                    out.copy(name);
                    out.put(b":");
                    let value = field.value(header);
                    match field.kind {
                        Kind::Received => received::write_value(&mut out, value),
                        Kind::Parameters => parameter::write_value(&mut out, value),
                        _ => comment::write_value(&mut out, value),
                    }
                    out.put(b"\r\n");
                }
                Kind::Held => {}
                _ => {
                    let text = field.folded_text(header);
                    if !field.folded {
                        self.write_text(&mut out, field.kind, name, text)
                    } else if text.len() <= 2048 {
                        self.write_folded(&mut out, field.kind, name, text, &mut [0; 2048])
                    } else {
                        self.write_folded(&mut out, field.kind, name, text, &mut vec![0; text.len()])
                    }
                }
            }
        }
        out.copy(&header[done..]);
        out.at
    }

    #[inline(never)]
    fn write_folded(&self, out: &mut Out, kind: Kind, name: &[u8], text: &[u8], room: &mut [u8]) {
        let len = header::unfolded(text, room);
        self.write_text(out, kind, name, &room[..len])
    }

    #[inline(always)]
    fn write_text(&self, out: &mut Out, kind: Kind, name: &[u8], text: &[u8]) {
        match kind {
            Kind::Plain => write_words(out, name, name.len(), text),
            Kind::Address => self.write_addresses(out, name, text),
            _ => encapsulate(out, name, text),
        }
    }

    #[inline(never)]
    fn write_addresses(&self, out: &mut Out, name: &[u8], text: &[u8]) {
        let mut parts = Parts::new(self.profile);
        if parts.list(text).is_none() {
            return encapsulate(out, name, text);
        }
        out.copy(name);
        out.put(b":");
        parts.write(out, text);
        out.put(b"\r\n");
        if parts.replaces && self.profile != Profile::Mailbox {
            encapsulate(out, name, text);
        }
    }
}

fn encapsulate(out: &mut Out, name: &[u8], text: &[u8]) {
    out.put(b"Downgraded-");
    write_words(out, name, name.len() + 11, text)
}

#[inline(always)]
fn write_words(out: &mut Out, name: &[u8], name_len: usize, text: &[u8]) {
    out.copy(name);
    out.put(b":");
    row_after_name(out, name_len, text);
    out.put(b"\r\n");
}
