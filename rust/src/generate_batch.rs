//! Made-up batches: records with good, shared, overlapping, empty and wild ranges.

use crate::batch::{RANGES, RECORD};
use crate::generate::{self, Random};

pub struct Batch {
    pub setting: u64,
    pub input: Vec<u8>,
    /// Whole records, then perhaps a part of one.
    pub records: Vec<u32>,
}

/// Where a part of the input lies.
type Range = (usize, usize);

/// An input of a few messages one after another, now and then with bytes of no message between them.
fn messages(r: &mut Random, setting: u64, input: &mut Vec<u8>) -> Vec<(Range, Range)> {
    let mut places = Vec::new();
    for _ in 0..r.from(1, 4) {
        let (envelope, header) = match r.below(3) {
            0 => (b"MAIL FROM:<a@x>\r\nRCPT TO:<b@y>\r\n".to_vec(), "Subject: \u{e9}\r\n".as_bytes().to_vec()),
            _ => generate::input(r, setting),
        };
        let start = input.len();
        input.extend_from_slice(&envelope);
        if r.once_in(3) {
            let gap = r.below(6);
            input.resize(input.len() + gap, b'-');
        }
        let middle = input.len();
        input.extend_from_slice(&header);
        places.push(((start, envelope.len()), (middle, header.len())));
    }
    places
}

/// A range that is bad, or good at its limit.
fn odd_range(r: &mut Random, size: usize) -> (u32, u32) {
    let size = size as u32;
    let inside = r.below(size as usize + 1) as u32;
    match r.below(14) {
        0 => (inside, size - inside),
        1 => (inside, size - inside + 1),
        2 => (size, 0),
        3 => (size, 1),
        4 => (size + 1, 0),
        5 => (inside, 0),
        6 => (0, size),
        7 => (0, size + 1),
        // Sums of 33 bits, which are small where they are cut to 32.
        8 => (inside, (0u32.wrapping_sub(inside)).wrapping_add(r.below(20) as u32)),
        9 => (u32::MAX - r.below(3) as u32, r.below(20) as u32),
        10 => (r.below(20) as u32, u32::MAX - r.below(3) as u32),
        11 => (u32::MAX, u32::MAX),
        12 => (1 << 31, 1 << 31),
        _ => (r.number() as u32, r.number() as u32),
    }
}

/// A range about a good one.
fn near_range(r: &mut Random, (start, len): Range, size: usize) -> (u32, u32) {
    let start = (start + r.below(5)).saturating_sub(2).min(size);
    let len = (len + r.below(5)).saturating_sub(2).min(size - start);
    (start as u32, len as u32)
}

fn ranges(r: &mut Random, places: &[(Range, Range)], size: usize, good: bool) -> [u32; RANGES] {
    let (envelope, header) = places[r.below(places.len())];
    // Mostly a header with its own envelope, now and then with another one.
    let header = if r.once_in(5) { places[r.below(places.len())].1 } else { header };
    let as_numbers = |(start, len): Range| (start as u32, len as u32);
    let (mut e, mut h) = (as_numbers(envelope), as_numbers(header));
    if !good {
        match r.below(14) {
            0 => e = odd_range(r, size),
            1 => h = odd_range(r, size),
            2 => (e, h) = (odd_range(r, size), odd_range(r, size)),
            3 => e = near_range(r, envelope, size),
            4 => h = near_range(r, header, size),
            // The two over each other, or the wrong way round.
            5 => (e, h) = (h, e),
            6 => h = e,
            7 => h = (h.0, 0),
            8 => e = (e.0, 0),
            _ => {}
        }
    }
    [e.0, e.1, h.0, h.1]
}

/// A batch of 0 to 50 records, with a last part of 0 to 8 numbers, and any old values in the five of each.
pub fn batch(r: &mut Random) -> Batch {
    let setting = generate::setting(r);
    let mut input = Vec::new();
    let places = messages(r, setting, &mut input);
    if r.once_in(3) {
        // The last range no longer ends with the buffer.
        let more = r.from(1, 9);
        input.resize(input.len() + more, b'+');
    }
    let count = match r.below(20) {
        0 => 0,
        1 | 2 => r.from(10, 50),
        3..=7 => 1,
        _ => r.from(2, 6),
    };
    let good = r.once_in(3);
    let mut records = Vec::with_capacity(RECORD * count + 8);
    for _ in 0..count {
        records.extend_from_slice(&ranges(r, &places, input.len(), good));
        for _ in RANGES..RECORD {
            records.push(if r.once_in(3) { 0 } else { r.number() as u32 });
        }
    }
    for _ in 0..r.below(2) * r.from(1, 8) {
        records.push(if r.once_in(2) { r.below(input.len() + 1) as u32 } else { r.number() as u32 });
    }
    Batch { setting, input, records }
}
