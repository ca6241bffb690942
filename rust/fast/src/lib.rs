//! The call made fast: what a Rust engineer with std alone would do once a profile is at hand. The header is checked in blocks of 64
//! bytes by SSE2 (each line end from a bit mask), fields and address parts are found once, text is classed 16 bytes at a time,
//! and nothing is allocated unless a header has over 96 fields that are not ASCII or a text is long and folded. In a header
//! buffer that might be short the output is written beside it, on the stack, and copied. SSE2 and uninitialised arrays are the only unsafe code.
mod address;
mod address_list;
mod call;
mod comment;
mod envelope;
mod header;
mod offset;
mod out;
mod parameter;
mod reader;
mod received;
mod simd;
mod words;
pub use call::{downgrade, downgrade_mailbox, Answer, MailboxAnswer};
pub use reader::{read, ReadAnswer};
