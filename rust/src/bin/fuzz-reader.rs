//! The reader of Downgraded fields: the fast version beside the model, and with the feature `proved` the proved call, on our own
//! headers, damaged ones and foreign ones.
//!
//!     fuzz-reader [--seed N] [--count N] [--seconds N]

use hennelaku_model::call::{Profile, Setting};
use hennelaku_model::checks::added_texts;
use hennelaku_model::generate::{self, Random};
use hennelaku_model::harness::{filled, pattern, Met, Run, GUARD};
use hennelaku_model::reader::{read, ReadAnswer, FIELD, NONE, ROOM, TEXT};
use hennelaku_model::versions::{self, ReadCall};
use hennelaku_model::{downgrade, downgrade_mailbox};
use std::process::exit;

/// What a call leaves: its answer, and the buffer with its guards.
#[derive(PartialEq)]
struct Outcome {
    answer: ReadAnswer,
    buffer: Vec<u8>,
}

fn outcome(call: ReadCall, header: &[u8], place: usize, room: usize, salt: u8) -> Outcome {
    let mut buffer = filled(room, salt);
    let answer = call(header, place, &mut buffer[GUARD..GUARD + room]);
    Outcome { answer, buffer }
}

/// "a refused field writes nothing"
fn fault(header: &[u8], place: usize, room: usize, got: &Outcome, salt: u8) -> Option<String> {
    let a = got.answer;
    let end = header.len();
    let good = match a.number {
        NONE => (a.start, a.next, a.length) == (end, end, 0),
        TEXT => a.length <= room,
        // [6.12]: "No text is longer than its field"
        ROOM => a.length > room && a.length <= a.next - a.start,
        number => number < ROOM && a.length == 0,
    };
    if !good || (a.number != NONE && !(place <= a.start && a.start < a.next && a.next <= end)) {
        return Some("an answer that the call does not have".into());
    }
    let len = if a.number == TEXT { a.length } else { 0 };
    for (at, &b) in got.buffer.iter().enumerate() {
        if !(GUARD..GUARD + len).contains(&at) && b != pattern(at, salt) {
            return Some(format!("buffer changed at {} past its length", at as isize - GUARD as isize));
        }
    }
    None
}

fn show(label: &str, header: &[u8], input: (usize, usize), model: &Outcome, other: (&str, &Outcome), why: &str) -> ! {
    println!("difference at {label}, {}: {why}", other.0);
    println!("header ({} bytes): \"{}\"", header.len(), header.escape_ascii());
    println!("place {}, room {}", input.0, input.1);
    for (name, got) in [("model", model), other] {
        println!("{name}: {:?}", got.answer);
        println!("  \"{}\"", got.buffer[GUARD..got.buffer.len() - GUARD].escape_ascii());
    }
    exit(1);
}

/// All calls on one header; what the model left.
fn compare(header: &[u8], place: usize, room: usize, calls: &[(&str, ReadCall)], salt: u8, label: &str) -> Outcome {
    let model = outcome(read, header, place, room, salt);
    if let Some(why) = fault(header, place, room, &model, salt) {
        show(label, header, (place, room), &model, ("model", &model), &why);
    }
    for (name, call) in calls {
        let other = outcome(*call, header, place, room, salt);
        if let Some(why) = fault(header, place, room, &other, salt) {
            show(label, header, (place, room), &model, (name, &other), &why);
        }
        if model != other {
            show(label, header, (place, room), &model, (name, &other), "answers or bytes differ");
        }
    }
    model
}

/// The room for what stands there: just right, one short, none, as much as the header has.
fn room(r: &mut Random, header: &[u8], place: usize) -> usize {
    let length = read(header, place, &mut []).length;
    match r.below(8) {
        0..=2 => length,
        3 => length.saturating_sub(1),
        4 => 0,
        5 => r.below(length + 20),
        _ => header.len(),
    }
}

fn place(r: &mut Random, header: &[u8]) -> usize {
    match r.below(4) {
        0 => usize::MAX - r.below(3) * (r.below(2) << 40),
        1 => header.len() + r.below(3),
        _ => r.below(header.len() + 1),
    }
}

/// "On a header we wrote, given room, each Downgraded field that we added shows exactly the text we encoded in it, in order."
fn ours_reads_back(r: &mut Random, calls: &[(&str, ReadCall)], label: &str) -> usize {
    let setting = generate::setting(r);
    let (envelope, header) = generate::input(r, setting);
    let mut out = vec![0; 80 * header.len() + 20_600];
    let mailbox = r.once_in(3);
    let (profile, number, len) = if mailbox {
        let answer = downgrade_mailbox(&header, &mut out);
        (Profile::Mailbox, answer.number, answer.length)
    } else {
        let answer = downgrade(setting, &envelope, &header, &mut [0; 17_000], &mut out);
        (Profile::Relay(Setting::new(setting)), answer.number, answer.header_len)
    };
    if number != 0 {
        return 0;
    }
    let out = &out[..len];
    let (mut place, mut added) = (0, 0);
    for want in added_texts(profile, &envelope, &header) {
        let got = compare(out, place, len, calls, 7, label);
        let read_back =
            got.answer.number == TEXT && Some(&got.buffer[GUARD..GUARD + got.answer.length]) == want.as_deref();
        if got.answer.number == NONE || (want.is_some() && !read_back) {
            show(label, out, (place, len), &got, ("model", &got), "not the text that was encoded");
        }
        added += want.is_some() as usize;
        place = got.answer.next;
    }
    if compare(out, place, 0, calls, 7, label).answer.number != NONE {
        println!("difference at {label}: a field that nobody added");
        exit(1);
    }
    added
}

/// Looks at a header and what the model read.
fn look(met: &mut Met, header: &[u8], got: &Outcome) {
    if got.answer.number == NONE {
        return;
    }
    let field = &header[got.answer.start..got.answer.next];
    let has = |part: &[u8]| field.windows(part.len()).any(|window| window.eq_ignore_ascii_case(part));
    let read = got.answer.number == TEXT;
    met.count("text with a Q word", read && has(b"?q?"));
    met.count("text with a B word", read && has(b"?b?"));
    met.count("text of two words that touch", read && has(b"?= =?"));
    met.count("text with other text beside words", read && (has(b"a =?") || has(b"?= a")));
    met.count("text with a fold", read && has(b"\r\n "));
    met.count("text that is empty", read && got.answer.length == 0);
    met.count("text of a field with no word", read && !has(b"=?"));
    met.count("malformed field with words", got.answer.number == FIELD && has(b"?q?"));
    met.count("field at the header's end", got.answer.next == header.len());
}

fn main() {
    let calls = versions::read_calls();
    let mut run = Run::from_arguments();
    let mut r = Random::new(run.seed);
    let mut numbers = [0; 7];
    let mut met = Met::default();
    let mut added = 0;
    while let Some(label) = run.begin_next() {
        if r.once_in(3) {
            added += ours_reads_back(&mut r, &calls, &label);
            continue;
        }
        let header = generate::reader::header(&mut r);
        // All fields from the front, or from some place on.
        let mut from = if r.once_in(2) { 0 } else { place(&mut r, &header) };
        loop {
            let room = room(&mut r, &header, from);
            let got = compare(&header, from, room, &calls, r.number() as u8, &label);
            numbers[got.answer.number as usize] += 1;
            look(&mut met, &header, &got);
            if got.answer.number == NONE {
                break;
            }
            from = got.answer.next;
        }
    }
    for (number, count) in numbers.iter().enumerate() {
        println!("number {number}: {count}");
    }
    print!("{met}");
    println!("fields that we added and that read back: {added}");
    let names: Vec<&str> = calls.iter().map(|(name, _)| *name).collect();
    println!("{} inputs, 0 differences (model, {})", run.done, names.join(", "));
}
