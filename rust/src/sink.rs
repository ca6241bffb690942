//! Where output goes: counted first, then written.
//! Written from document 01, Answers by number: "A refusal changes no byte of either buffer".

use crate::words::{write_base64, SIZE, SPELLING};

pub trait Sink {
    fn put(&mut self, bytes: &[u8]);
    /// Whole characters in the spelling of Q words; they take `size` bytes.
    fn spell(&mut self, characters: &[u8], size: usize);
    /// The same in B.
    fn base64(&mut self, characters: &[u8], size: usize);
}

/// Measures.
#[derive(Default)]
pub struct Counter {
    pub len: usize,
}

impl Sink for Counter {
    #[inline]
    fn put(&mut self, bytes: &[u8]) {
        self.len += bytes.len();
    }

    #[inline]
    fn spell(&mut self, _characters: &[u8], size: usize) {
        self.len += size;
    }

    #[inline]
    fn base64(&mut self, _characters: &[u8], size: usize) {
        self.len += size;
    }
}

/// Writes to the front of a buffer that has been found long enough.
pub struct Writer<'a> {
    pub buffer: &'a mut [u8],
    pub at: usize,
}

impl Sink for Writer<'_> {
    #[inline]
    fn put(&mut self, bytes: &[u8]) {
        self.buffer[self.at..self.at + bytes.len()].copy_from_slice(bytes);
        self.at += bytes.len();
    }

    /// Stores four bytes for each. Those past a byte's spelling are written over by what follows: at least the
    /// word's `?=` and the field's CRLF, so that the buffer is long enough for them too.
    #[inline]
    fn spell(&mut self, characters: &[u8], size: usize) {
        let out = &mut self.buffer[self.at..self.at + size + 3];
        let mut at = 0;
        for &b in characters {
            out[at..at + 4].copy_from_slice(&SPELLING[b as usize]);
            at += SIZE[b as usize] as usize;
        }
        self.at += size;
    }
    #[inline]
    fn base64(&mut self, characters: &[u8], size: usize) {
        write_base64(characters, &mut self.buffer[self.at..self.at + size]);
        self.at += size;
    }
}
