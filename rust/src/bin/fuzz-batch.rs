//! The proved batch call beside the model, and beside as many single proved calls: equal numbers and equal bytes on
//! made-up batches.
//!
//!     fuzz-batch [--seed N] [--count N] [--seconds N]

use hennelaku_model::batch::{RANGES, RECORD};
use hennelaku_model::generate::Random;
use hennelaku_model::generate_batch::{batch, Batch};
use hennelaku_model::harness::{filled, pattern, Met, Run, GUARD};
use hennelaku_model::{downgrade_batch, proved};
use std::process::exit;

type Call = fn(u64, &[u8], &mut [u32], &mut [u8], &mut [u8]);

/// Numbers before and after the records.
const RECORD_GUARD: usize = 16;
const GUARD_NUMBER: u32 = 0xA5C3_0F96;

/// The rooms of the two buffers.
type Rooms = (usize, usize);

/// What a call leaves: the records and both buffers, with their guards.
#[derive(PartialEq)]
struct Outcome {
    records: Vec<u32>,
    envelope: Vec<u8>,
    header: Vec<u8>,
}

impl Outcome {
    fn records(&self) -> &[u32] {
        &self.records[RECORD_GUARD..self.records.len() - RECORD_GUARD]
    }

    /// The five numbers of each record.
    fn fives(&self) -> impl Iterator<Item = [usize; 5]> + '_ {
        self.records().chunks_exact(RECORD).map(|record| std::array::from_fn(|at| record[RANGES + at] as usize))
    }
}

fn outcome(call: Call, batch: &Batch, rooms: Rooms, salt: u8) -> Outcome {
    let guard = [GUARD_NUMBER; RECORD_GUARD];
    let mut records = [&guard, &batch.records[..], &guard].concat();
    let mut envelope = filled(rooms.0, salt);
    let mut header = filled(rooms.1, salt);
    let end = records.len() - RECORD_GUARD;
    call(
        batch.setting,
        &batch.input,
        &mut records[RECORD_GUARD..end],
        &mut envelope[GUARD..GUARD + rooms.0],
        &mut header[GUARD..GUARD + rooms.1],
    );
    Outcome { records, envelope, header }
}

/// "Each record's answer and bytes equal those of a single call given the room that is left": by single proved calls.
fn by_single_calls(
    setting: u64,
    input: &[u8],
    records: &mut [u32],
    mut envelope_room: &mut [u8],
    mut header_room: &mut [u8],
) {
    for record in records.chunks_exact_mut(RECORD) {
        let [e, e_len, h, h_len]: [usize; RANGES] = std::array::from_fn(|at| record[at] as usize);
        if e + e_len > input.len() || h + h_len > input.len() {
            record[RANGES..].copy_from_slice(&[9, 0, 0, 0, 0]);
            continue;
        }
        let answer = proved::downgrade(setting, &input[e..e + e_len], &input[h..h + h_len], envelope_room, header_room);
        envelope_room = &mut envelope_room[answer.envelope_len..];
        header_room = &mut header_room[answer.header_len..];
        record[RANGES] = answer.number;
        for (at, number) in [answer.place, answer.offset, answer.envelope_len, answer.header_len].iter().enumerate() {
            record[RANGES + 1 + at] = *number as u32;
        }
    }
}

/// "Input numbers and a last part of fewer than nine are not touched." [9.11]: "A refused record changes no byte of the
/// buffers; past the last output both are as before."
fn fault(batch: &Batch, rooms: Rooms, got: &Outcome, salt: u8) -> Option<String> {
    let end = got.records.len() - RECORD_GUARD;
    if got.records[..RECORD_GUARD].iter().chain(&got.records[end..]).any(|&number| number != GUARD_NUMBER) {
        return Some("a number outside the records changed".into());
    }
    let whole = batch.records.len() / RECORD * RECORD;
    for (at, (before, after)) in batch.records.iter().zip(got.records()).enumerate() {
        if before != after && (at >= whole || at % RECORD < RANGES) {
            return Some(format!("number {at} of the records changed"));
        }
    }
    let (mut envelope, mut header) = (0, 0);
    for [number, place, offset, envelope_len, header_len] in got.fives() {
        let current = batch.setting != 0;
        if number > 10 || (number == 10 && !current) || (number == 4 && current) {
            return Some(format!("a number {number}"));
        }
        if number != 0 && (envelope_len, header_len) != (0, 0) {
            return Some("lengths after a refusal".into());
        }
        if number == 9 && (place, offset) != (0, 0) {
            return Some("a place or an offset beside 9".into());
        }
        envelope += envelope_len;
        header += header_len;
    }
    if envelope > rooms.0 || header > rooms.1 {
        return Some("lengths past the room".into());
    }
    for (name, buffer, len) in [("envelope", &got.envelope, envelope), ("header", &got.header, header)] {
        for (at, &b) in buffer.iter().enumerate() {
            let written = at >= GUARD && at < GUARD + len;
            if (written && b > 127) || (!written && b != pattern(at, salt)) {
                return Some(format!("{name} buffer at {} of {len}", at as isize - GUARD as isize));
            }
        }
    }
    None
}

/// Rooms just right, short by one or by a record, zero, large, any.
fn rooms(r: &mut Random, batch: &Batch, scratch: &mut (Vec<u8>, Vec<u8>)) -> Rooms {
    let mut records = batch.records.clone();
    downgrade_batch(batch.setting, &batch.input, &mut records, &mut scratch.0, &mut scratch.1);
    let lens: Vec<Rooms> =
        records.chunks_exact(RECORD).map(|record| (record[7] as usize, record[8] as usize)).collect();
    let (e, h) = lens.iter().fold((0, 0), |sum, len| (sum.0 + len.0, sum.1 + len.1));
    let one = if lens.is_empty() { (0, 0) } else { lens[r.below(lens.len())] };
    let first = lens[..r.below(lens.len() + 1)].iter().fold((0, 0), |sum, len| (sum.0 + len.0, sum.1 + len.1));
    match r.below(20) {
        0..=5 => (e, h),
        6 => (e.saturating_sub(1), h),
        7 => (e, h.saturating_sub(1)),
        8 => (0, 0),
        9 => (e, 0),
        10 => (r.below(e + 20), r.below(h + 200)),
        // Without the room of one record, and one byte more or less.
        11 => ((e + r.below(3) - one.0).saturating_sub(1), h + r.below(30)),
        12 => (e + r.below(30), (h + r.below(3) - one.1).saturating_sub(1)),
        // Room for the first records, and hardly more.
        13 => (first.0 + r.below(3), h),
        14 => (e, first.1 + r.below(3)),
        15 => (first.0 + r.below(40), first.1 + r.below(200)),
        // So much that the proved call does not measure some of the headers.
        16 => (e, h + r.below(200_000)),
        _ => (e + r.below(300), h + r.below(3000)),
    }
}

/// Looks at a batch and what the model made of it.
fn look(met: &mut Met, batch: &Batch, rooms: Rooms, got: &Outcome) {
    let size = batch.input.len() as u64;
    let count = batch.records.len() / RECORD;
    met.count("batch with no record", count == 0);
    met.count("batch of one record", count == 1);
    met.count("batch of 2 to 9 records", (2..10).contains(&count));
    met.count("batch of 10 to 50 records", count > 9);
    met.count("batch with a last part", !batch.records.len().is_multiple_of(RECORD));
    met.count("batch with a last part alone", count == 0 && !batch.records.is_empty());
    met.count("batch of current messages", batch.setting != 0);
    let fives: Vec<_> = got.fives().collect();
    let (mut envelope, mut header) = (0, 0);
    let (mut fits_after_short, mut eight_with_envelope_room, mut nothing_in_no_room) = (false, false, false);
    for (at, five) in fives.iter().enumerate() {
        let short = fives[..at].iter().any(|before| matches!(before[0], 7 | 8));
        fits_after_short |= five[0] == 0 && short;
        eight_with_envelope_room |= five[0] == 8 && fives[at..].iter().any(|after| after[0] == 0);
        nothing_in_no_room |= five[0] == 0 && header == rooms.1 && five[4] == 0;
        envelope += five[3];
        header += five[4];
    }
    met.count("record that fits after one that did not", fits_after_short);
    met.count("8, and a later record that is written", eight_with_envelope_room);
    met.count("record of no header bytes where no header room is left", nothing_in_no_room);
    met.count("both rooms used to the last byte", (envelope, header) == rooms && header > 0);
    let mut seen = [false; 12];
    for (record, five) in batch.records.chunks_exact(RECORD).zip(&fives) {
        let sums = [u64::from(record[0]) + u64::from(record[1]), u64::from(record[2]) + u64::from(record[3])];
        let bad = sums.map(|sum| sum > size);
        let nine = five[0] == 9;
        seen[0] |= nine && bad == [true, false];
        seen[1] |= nine && bad == [false, true];
        seen[2] |= nine && bad == [true, true];
        seen[3] |= nine && sums.iter().any(|&sum| sum > u64::from(u32::MAX) && sum as u32 as u64 <= size);
        let empty_past_end = |at: usize| u64::from(record[at]) > size && record[at + 1] == 0;
        seen[4] |= nine && (empty_past_end(0) || empty_past_end(2));
        seen[5] |= nine && bad == [false, true] && record[1] > 16_384;
        seen[6] |= nine && bad == [false, true] && record[1] == 0;
        seen[7] |= !nine && sums.contains(&size);
        seen[8] |= !nine && u64::from(record[2]) == size && five[0] == 0;
        let overlaps = u64::from(record[0]) < sums[1] && u64::from(record[2]) < sums[0];
        seen[9] |= !nine && overlaps && record[1] > 0 && record[3] > 0;
        seen[10] |= matches!(five[0], 2..=6 | 10) && five[2] > 0 && (record[0] > 0 || record[2] > 0);
        seen[11] |= record[RANGES..].iter().all(|&old| old != 0) && five[0] != 0;
    }
    met.count("9 for the envelope's range", seen[0]);
    met.count("9 for the header's range", seen[1]);
    met.count("9 for both", seen[2]);
    met.count("9 for a sum that is small in 32 bits", seen[3]);
    met.count("9 for an empty range past the end", seen[4]);
    met.count("9 where the envelope is too long", seen[5]);
    met.count("9 where the envelope is empty", seen[6]);
    met.count("range that ends with the input", seen[7]);
    met.count("empty header at the end of the input", seen[8]);
    met.count("envelope and header that overlap", seen[9]);
    met.count("offset within a record that begins later in the input", seen[10]);
    met.count("refusal over old values", seen[11]);
    let mut ranges: Vec<_> = batch.records.chunks_exact(RECORD).map(|record| &record[..RANGES]).collect();
    ranges.sort_unstable();
    met.count("two records of the same ranges", ranges.windows(2).any(|two| two[0] == two[1]));
}

fn show(label: &str, batch: &Batch, rooms: Rooms, got: &[(&str, &Outcome)], why: &str) -> ! {
    println!("difference at {label}: {why}");
    println!("input ({} bytes): \"{}\"", batch.input.len(), batch.input.escape_ascii());
    println!("setting {}, rooms {} and {}", batch.setting, rooms.0, rooms.1);
    println!("records: {:?}", batch.records);
    for (name, got) in got {
        println!("{name}: {:?}", got.records());
        println!("  \"{}\"", got.envelope[GUARD..GUARD + rooms.0].escape_ascii());
        println!("  \"{}\"", got.header[GUARD..GUARD + rooms.1].escape_ascii());
    }
    exit(1);
}

/// All three on one batch; what the model left.
fn compare(batch: &Batch, rooms: Rooms, salt: u8, label: &str) -> Outcome {
    let input = batch.input.clone();
    let model = outcome(downgrade_batch, batch, rooms, salt);
    let other = outcome(proved::downgrade_batch, batch, rooms, salt);
    let singles = outcome(by_single_calls, batch, rooms, salt);
    let got = [("model", &model), ("proved", &other), ("proved single calls", &singles)];
    for (name, outcome) in got {
        if let Some(why) = fault(batch, rooms, outcome, salt) {
            show(label, batch, rooms, &got, &format!("{name}: {why}"));
        }
    }
    if model != other || other != singles {
        show(label, batch, rooms, &got, "numbers or bytes differ");
    }
    if input != batch.input {
        show(label, batch, rooms, &got, "the input changed");
    }
    model
}

fn main() {
    proved::check_version();
    let mut run = Run::from_arguments();
    let mut r = Random::new(run.seed);
    let mut scratch = (vec![0; 900_000], vec![0; 4_000_000]);
    let mut numbers = [0; 11];
    let mut tails = [0; RECORD];
    let mut met = Met::default();
    while let Some(label) = run.begin_next() {
        let batch = batch(&mut r);
        let rooms = rooms(&mut r, &batch, &mut scratch);
        let got = compare(&batch, rooms, r.number() as u8, &label);
        got.fives().for_each(|five| numbers[five[0]] += 1);
        tails[batch.records.len() % RECORD] += 1;
        look(&mut met, &batch, rooms, &got);
    }
    for (number, count) in numbers.iter().enumerate() {
        println!("records with number {number}: {count}");
    }
    for (len, count) in tails.iter().enumerate() {
        println!("batches with a last part of {len}: {count}");
    }
    print!("{met}");
    println!("{} batches of {} records, 0 differences", run.done, numbers.iter().sum::<u64>());
}
