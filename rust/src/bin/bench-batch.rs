//! Times the proved batch call beside as many single proved calls and beside the model.

use hennelaku_model::batch::RECORD;
use hennelaku_model::rows::{header, ENVELOPE, MIXED};
use hennelaku_model::{downgrade_batch, proved};
use std::hint::black_box;

#[repr(C)]
struct Timespec {
    seconds: i64,
    nanoseconds: i64,
}

extern "C" {
    fn clock_gettime(clock: i32, time: *mut Timespec) -> i32;
}

/// This thread's time on a processor, in nanoseconds: a batch takes too long to pass without a pause on a busy machine.
fn thread_time() -> f64 {
    const CLOCK_THREAD_CPUTIME_ID: i32 = 3;
    let mut time = Timespec { seconds: 0, nanoseconds: 0 };
    // SAFETY: the pointer is to a timespec of 64-bit Linux.
    assert_eq!(unsafe { clock_gettime(CLOCK_THREAD_CPUTIME_ID, &mut time) }, 0);
    time.seconds as f64 * 1e9 + time.nanoseconds as f64
}

/// As many bulletins of 3 KB as records, each with an area of its own.
fn bulletins(count: usize) -> (Vec<u8>, Vec<u32>) {
    let (mut input, mut records) = (Vec::new(), Vec::new());
    let rest = header(3000, MIXED);
    for number in 0..count {
        let start = input.len();
        input.extend_from_slice(ENVELOPE.as_bytes());
        let middle = input.len();
        input.extend_from_slice(format!("X-Number: {number}\r\nX-Area: Öresund {number}\r\n").as_bytes());
        input.extend_from_slice(&rest);
        let ranges = [start, middle - start, middle, input.len() - middle];
        records.extend(ranges.map(|number| number as u32));
        records.resize(RECORD * (number + 1), 0);
    }
    (input, records)
}

type BatchCall = fn(u64, &[u8], &mut [u32], &mut [u8], &mut [u8]);

/// As many single proved calls as records.
fn single_calls(setting: u64, input: &[u8], records: &mut [u32], envelopes: &mut [u8], headers: &mut [u8]) {
    let (mut envelopes, mut headers) = (envelopes, headers);
    for record in records.chunks_exact_mut(RECORD) {
        let [e, e_len, h, h_len]: [usize; 4] = std::array::from_fn(|at| record[at] as usize);
        let answer = proved::downgrade(setting, &input[e..e + e_len], &input[h..h + h_len], envelopes, headers);
        envelopes = &mut envelopes[answer.envelope_len..];
        headers = &mut headers[answer.header_len..];
        let numbers = [answer.number as usize, answer.place, answer.offset, answer.envelope_len, answer.header_len];
        for (out, number) in record[4..].iter_mut().zip(numbers) {
            *out = number as u32;
        }
    }
}

/// One batch of so many bulletins: proved, as single proved calls, by the model.
fn compare_batch(count: usize) {
    let label = format!("batch, {count} bulletins of 3 KB");
    let (input, records) = bulletins(count);
    let calls: [BatchCall; 3] = [proved::downgrade_batch, single_calls, downgrade_batch];
    let mut best = [f64::MAX; 3];
    let mut left = Vec::new();
    let (mut envelopes, mut headers) = (vec![0; 200 * count], vec![0; 8000 * count]);
    for _ in 0..(20_000 / count).clamp(5, 50) {
        for (at, call) in calls.iter().enumerate() {
            let mut records = records.clone();
            let start = thread_time();
            call(0, black_box(&input), &mut records, &mut envelopes, &mut headers);
            best[at] = best[at].min(thread_time() - start);
            if left.len() < calls.len() {
                let used: Vec<usize> = [7, 8].map(|at| records.chunks(RECORD).map(|r| r[at] as usize).sum()).to_vec();
                assert!(records.chunks(RECORD).all(|record| record[4] == 0));
                left.push((records, envelopes[..used[0]].to_vec(), headers[..used[1]].to_vec()));
            }
        }
    }
    assert!(left.iter().all(|other| *other == left[0]));
    let [batch, singles, model] = best.map(|time| time / count as f64);
    println!(
        "{label:<34} {:>9} in {:>9} out   for each: proved {batch:>7.0} ns   single calls {singles:>7.0} ns   \
         model {model:>7.0} ns   ratio {:.2}",
        input.len(),
        left[0].1.len() + left[0].2.len(),
        batch / model
    );
}

fn main() {
    proved::check_version();
    for count in [100, 1000, 10_000] {
        compare_batch(count);
    }
}
