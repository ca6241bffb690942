//! The versions of the call that are set against the model: the fast one, and with the feature `proved` the proved one.

use crate::reader::ReadAnswer;
use crate::{Answer, MailboxAnswer};

pub type Call = fn(u64, &[u8], &[u8], &mut [u8], &mut [u8]) -> Answer;

/// Each with its name; the proved one, if it is there, comes first.
pub fn calls() -> Vec<(&'static str, Call)> {
    let mut calls: Vec<(&'static str, Call)> = Vec::new();
    #[cfg(feature = "proved")]
    {
        crate::proved::check_version();
        calls.push(("proved", crate::proved::downgrade));
    }
    calls.push(("fast", fast));
    calls
}

pub fn fast(
    setting: u64,
    envelope: &[u8],
    header: &[u8],
    envelope_buffer: &mut [u8],
    header_buffer: &mut [u8],
) -> Answer {
    let answer = hennelaku_fast::downgrade(setting, envelope, header, envelope_buffer, header_buffer);
    Answer {
        number: answer.number,
        input: answer.input,
        place: answer.place,
        offset: answer.offset,
        envelope_len: answer.envelope_len,
        header_len: answer.header_len,
    }
}

pub type MailboxCall = fn(&[u8], &mut [u8]) -> MailboxAnswer;

pub fn mailbox_calls() -> Vec<(&'static str, MailboxCall)> {
    let mut calls: Vec<(&'static str, MailboxCall)> = Vec::new();
    #[cfg(feature = "proved")]
    {
        crate::proved::check_version();
        calls.push(("proved", crate::proved::downgrade_mailbox));
    }
    calls.push(("fast", fast_mailbox));
    calls
}

pub fn fast_mailbox(header: &[u8], buffer: &mut [u8]) -> MailboxAnswer {
    let answer = hennelaku_fast::downgrade_mailbox(header, buffer);
    MailboxAnswer { number: answer.number, place: answer.place, offset: answer.offset, length: answer.length }
}

pub type ReadCall = fn(&[u8], usize, &mut [u8]) -> ReadAnswer;

pub fn read_calls() -> Vec<(&'static str, ReadCall)> {
    let mut calls: Vec<(&'static str, ReadCall)> = Vec::new();
    #[cfg(feature = "proved")]
    {
        crate::proved::check_version();
        calls.push(("proved", crate::proved::read));
    }
    calls.push(("fast", fast_read));
    calls
}

pub fn fast_read(header: &[u8], place: usize, buffer: &mut [u8]) -> ReadAnswer {
    let answer = hennelaku_fast::read(header, place, buffer);
    ReadAnswer { number: answer.number, start: answer.start, next: answer.next, length: answer.length }
}
