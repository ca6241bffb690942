//! Why lines were malformed, counted for the fuzz test.

use crate::offset::{envelope_line, header_line, Reason, Stop, LINE};
use crate::Answer;
use std::collections::BTreeMap;
use std::fmt;

/// Where the line at the front of the bytes stops, by its number and a limit.
type StopOf = fn(&[u8], usize, usize) -> Option<Stop>;

/// By number, what the line had come to, and what was wrong there.
#[derive(Default)]
pub struct LineFaults {
    counts: BTreeMap<(u32, &'static str, Reason), usize>,
}

impl LineFaults {
    /// Counts a refusal with 2 or 5.
    pub fn count(&mut self, envelope: &[u8], header: &[u8], answer: Answer) {
        let (bytes, stop): (_, StopOf) = match answer.number {
            2 => (envelope, envelope_line),
            5 => (header, header_line),
            _ => return,
        };
        // Of the lines before only their CRLFs hold an LF.
        let start: usize = bytes.split_inclusive(|&b| b == b'\n').take(answer.place).map(<[u8]>::len).sum();
        let cause = match stop(&bytes[start..], answer.place, LINE) {
            _ if start == bytes.len() => ("missing line", Reason::End),
            Some(stop) => (stop.state, stop.reason),
            None => ("not malformed", Reason::End),
        };
        *self.counts.entry((answer.number, cause.0, cause.1)).or_default() += 1;
    }
}

impl fmt::Display for LineFaults {
    fn fmt(&self, out: &mut fmt::Formatter) -> fmt::Result {
        for ((number, state, reason), count) in &self.counts {
            let what = match reason {
                Reason::Byte => "byte",
                Reason::Character => "byte inside a character",
                Reason::Limit => "no room for what must follow",
                Reason::AfterCr => "byte after CR",
                Reason::End => "end of the data",
            };
            writeln!(out, "{number}, {state}, {what}: {count}")?;
        }
        writeln!(out, "refusals with 2 or 5: {}, of {} causes", self.counts.values().sum::<usize>(), self.counts.len())
    }
}
