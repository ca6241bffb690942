//! The downgrade call in plain Rust, written from the papers alone: a second opinion on the proved call.
//! Document 01 is the scope paper, 02 the change requests; [5] is the fifth of these, [5.2] the second of its settled
//! readings. The words in quotation marks are theirs.

pub mod address;
pub mod address_list;
pub mod batch;
pub mod call;
pub mod checks;
pub mod comment;
pub mod envelope;
pub mod generate;
pub mod generate_batch;
pub mod harness;
pub mod header;
pub mod line_faults;
pub mod offset;
pub mod parameter;
#[cfg(feature = "proved")]
pub mod proved;
pub mod reader;
pub mod received;
pub mod rfc2231;
pub mod rfc5322;
pub mod rows;
pub mod sink;
pub mod utf8;
pub mod versions;
pub mod words;
pub mod worst;

pub use batch::downgrade_batch;
pub use call::{downgrade, downgrade_mailbox, Answer, MailboxAnswer};

#[cfg(test)]
mod completions;
#[cfg(test)]
mod tests;
