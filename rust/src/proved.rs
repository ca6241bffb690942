//! The proved calls, through the C declarations of the crate `hennelaku`.

use crate::reader::ReadAnswer;
use crate::{Answer, MailboxAnswer};
use hennelaku::c;

/// Ends the program if the library's calls are not those that the crate declares.
pub fn check_version() {
    let version = hennelaku::version();
    if version != hennelaku::VERSION {
        eprintln!("libhennelaku.a has version {version}; {} is needed", hennelaku::VERSION);
        std::process::exit(2);
    }
}

pub fn downgrade(
    setting: u64,
    envelope: &[u8],
    header: &[u8],
    envelope_buffer: &mut [u8],
    header_buffer: &mut [u8],
) -> Answer {
    // SAFETY: each pointer comes from a slice with its length; the two buffers are apart from all others.
    let answer = unsafe {
        c::hennelaku_downgrade(
            setting,
            envelope.as_ptr(),
            envelope.len(),
            header.as_ptr(),
            header.len(),
            envelope_buffer.as_mut_ptr(),
            envelope_buffer.len(),
            header_buffer.as_mut_ptr(),
            header_buffer.len(),
        )
    };
    Answer {
        number: answer.number,
        input: answer.input,
        place: answer.place,
        offset: answer.offset,
        envelope_len: answer.envelope_len,
        header_len: answer.header_len,
    }
}

pub fn downgrade_batch(
    setting: u64,
    input: &[u8],
    records: &mut [u32],
    envelope_buffer: &mut [u8],
    header_buffer: &mut [u8],
) {
    // SAFETY: each pointer comes from a slice with its length; what is written to is apart from all others.
    unsafe {
        c::hennelaku_downgrade_batch(
            setting,
            input.as_ptr(),
            input.len(),
            records.as_mut_ptr(),
            records.len(),
            envelope_buffer.as_mut_ptr(),
            envelope_buffer.len(),
            header_buffer.as_mut_ptr(),
            header_buffer.len(),
        )
    }
}

pub fn downgrade_mailbox(header: &[u8], buffer: &mut [u8]) -> MailboxAnswer {
    // SAFETY: each pointer comes from a slice with its length; the buffer is apart from the header.
    let answer =
        unsafe { c::hennelaku_downgrade_mailbox(header.as_ptr(), header.len(), buffer.as_mut_ptr(), buffer.len()) };
    MailboxAnswer { number: answer.number, place: answer.place, offset: answer.offset, length: answer.length }
}

pub fn read(header: &[u8], place: usize, buffer: &mut [u8]) -> ReadAnswer {
    // SAFETY: each pointer comes from a slice with its length; the buffer is apart from the header.
    let answer = unsafe {
        c::hennelaku_read_downgraded(header.as_ptr(), header.len(), place, buffer.as_mut_ptr(), buffer.len())
    };
    ReadAnswer { number: answer.number, start: answer.start, next: answer.next, length: answer.length }
}
