//! No recipient learns of another (request [14]): two envelopes with the same MAIL line, each with two or more RCPT lines,
//! and the same header give the same header bytes if both are answered 0, by the proved call and by the model, in single
//! calls and as two records of a batch.
//!
//!     fuzz-pairs [--seed N] [--count N] [--seconds N]

use hennelaku_model::batch::RECORD;
use hennelaku_model::generate::{envelope_pair, header, setting, Random};
use hennelaku_model::harness::{Met, Run};
use hennelaku_model::{downgrade, downgrade_batch, proved, Answer};
use std::process::exit;

type Call = fn(u64, &[u8], &[u8], &mut [u8], &mut [u8]) -> Answer;
type BatchCall = fn(u64, &[u8], &mut [u32], &mut [u8], &mut [u8]);

const CALLS: [(&str, Call, BatchCall); 2] =
    [("model", downgrade, downgrade_batch), ("proved", proved::downgrade, proved::downgrade_batch)];

struct Pair {
    setting: u64,
    envelopes: [Vec<u8>; 2],
    header: Vec<u8>,
}

/// What is filled before a call, other bytes for each.
fn filled(room: usize, byte: u8) -> Vec<u8> {
    vec![byte; room]
}

/// The header bytes of one single call, where it is answered 0.
fn single(call: Call, pair: &Pair, at: usize, rooms: (usize, usize)) -> (Answer, Vec<u8>) {
    let (mut envelope, mut header) = (filled(rooms.0, 0xA1 + at as u8), filled(rooms.1, 0xA1 + at as u8));
    let answer = call(pair.setting, &pair.envelopes[at], &pair.header, &mut envelope, &mut header);
    header.truncate(answer.header_len);
    (answer, header)
}

/// The two as records of one batch, with others before, between and after them: number and header bytes of each.
fn in_a_batch(call: BatchCall, pair: &Pair, others: [usize; 3], room: usize) -> [(u32, Vec<u8>); 2] {
    let other = b"MAIL FROM:<>\r\nRCPT TO:<b@y>\r\nX: \xC3\xA9\r\n";
    let input = [&other[..], &pair.header, &pair.envelopes[0], &pair.envelopes[1]].concat();
    let header = [other.len(), pair.header.len()];
    let first = [header[0] + header[1], pair.envelopes[0].len()];
    let second = [first[0] + first[1], pair.envelopes[1].len()];
    let mut records = Vec::new();
    let mut places = Vec::new();
    for (others, own) in others.iter().zip([Some(first), Some(second), None]) {
        for _ in 0..*others {
            records.extend([0, 29, 29, other.len() as u32 - 29, 0, 0, 0, 0, 0]);
        }
        if let Some(envelope) = own {
            places.push(records.len());
            records.extend([envelope[0], envelope[1], header[0], header[1], 0, 0, 0, 0, 0].map(|number| number as u32));
        }
    }
    let (mut envelopes, mut headers) = (filled(40_000, 0xA3), filled(room, 0xA3));
    call(pair.setting, &input, &mut records, &mut envelopes, &mut headers);
    [places[0], places[1]].map(|place| {
        let start: usize = records[..place].chunks(RECORD).map(|record| record[8] as usize).sum();
        (records[place + 4], headers[start..start + records[place + 8] as usize].to_vec())
    })
}

fn lines(envelope: &[u8]) -> usize {
    envelope.iter().filter(|&&b| b == b'\n').count()
}

fn show(label: &str, name: &str, pair: &Pair, headers: [&[u8]; 2]) -> ! {
    println!("difference at {label}, {name}: the headers differ");
    println!("setting {}", pair.setting);
    for envelope in &pair.envelopes {
        println!("envelope: \"{}\"", envelope.escape_ascii());
    }
    println!("header: \"{}\"", pair.header.escape_ascii());
    for header in headers {
        println!("written: \"{}\"", header.escape_ascii());
    }
    exit(1);
}

fn look(met: &mut Met, pair: &Pair, got: &[(Answer, Vec<u8>); 2]) {
    let both = got[0].0.number == 0 && got[1].0.number == 0;
    met.count("both answered 0", both);
    met.count("one refused, the other not", (got[0].0.number == 0) != (got[1].0.number == 0));
    let count = [lines(&pair.envelopes[0]), lines(&pair.envelopes[1])];
    met.count("both answered 0, of the spool", both && pair.setting == 0);
    met.count("both answered 0, current", both && pair.setting != 0);
    met.count("both answered 0, other numbers of RCPT lines", both && count[0] != count[1]);
    met.count("both answered 0, more than 90 RCPT lines", both && count.iter().any(|&count| count > 91));
    met.count("both answered 0, other RCPT lines", both && pair.envelopes[0] != pair.envelopes[1]);
    let replaced = |at: usize| got[at].0.envelope_len != pair.envelopes[at].len();
    met.count("both answered 0, paths replaced in one alone", both && replaced(0) != replaced(1));
    met.count("both answered 0, paths replaced in both", both && replaced(0) && replaced(1));
    let mail_from = b"Downgraded-Mail-From:";
    met.count("both answered 0, with Downgraded-Mail-From", both && got[0].1.starts_with(mail_from));
    met.count("both answered 0, a header that is rewritten", both && got[0].1 != pair.header);
}

fn main() {
    proved::check_version();
    let mut run = Run::from_arguments();
    let mut r = Random::new(run.seed);
    let mut met = Met::default();
    while let Some(label) = run.begin_next() {
        let setting = setting(&mut r);
        let (one, other) = envelope_pair(&mut r, setting);
        let pair = Pair { setting, envelopes: [one, other], header: header(&mut r) };
        let others = [r.below(3), r.below(3), r.below(2)];
        // [14.2]: "Rooms may differ." Now and then they are short.
        let rooms = [0, 1].map(|_| {
            let short = r.once_in(20);
            (17_000 + r.below(9), if short { r.below(2000) } else { 700_000 })
        });
        let batch_room = if r.once_in(10) { r.below(4000) } else { 1_500_000 };
        for (name, call, batch_call) in CALLS {
            let got = [0, 1].map(|at| single(call, &pair, at, rooms[at]));
            if got.iter().all(|(answer, _)| answer.number == 0) && got[0].1 != got[1].1 {
                show(&label, name, &pair, [&got[0].1, &got[1].1]);
            }
            let records = in_a_batch(batch_call, &pair, others, batch_room);
            if records.iter().all(|(number, _)| *number == 0) && records[0].1 != records[1].1 {
                show(&label, &format!("{name}, in a batch"), &pair, [&records[0].1, &records[1].1]);
            }
            if name == "proved" {
                look(&mut met, &pair, &got);
                let zero = records.iter().all(|(number, _)| *number == 0);
                met.count("both answered 0 in a batch", zero);
                met.count("both answered 0 in a batch, others between them", zero && others[1] > 0);
            }
        }
    }
    print!("{met}");
    println!("{} pairs, 0 differences", run.done);
}
