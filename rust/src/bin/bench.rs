//! Times model, fast version and, with the feature `proved`, the proved calls, in one process, after having compared them.
//!
//!     bench [PART OF A LABEL] [--write FILE] [--inputs N]
//!
//! FILE gets the tables between its lines `<!-- bench -->` and `<!-- end of bench -->`. N made-up inputs are compared first.

use hennelaku_model::generate::{self, Random};
use hennelaku_model::reader::{self, ReadAnswer};
use hennelaku_model::rows::{self, Row};
use hennelaku_model::versions::{self, Call, MailboxCall, ReadCall};
use hennelaku_model::{downgrade, downgrade_mailbox, worst, Answer, MailboxAnswer};
use std::fmt::Write;
use std::hint::black_box;
use std::time::Instant;

/// Places of the input in memory, and rounds at each. Where the input lies against the buffers moves a time by up to a half
/// (stores that alias loads), so that the best time of the rounds is taken at each place, and the mean over the places is told.
const PLACES: usize = 8;
const ROUNDS: usize = 10;
/// Nanoseconds that one round of a call is to take.
const ROUND: f64 = 150_000.0;
/// Larger than all that is written.
const ENVELOPE_ROOM: usize = 20_000;
const HEADER_ROOM: usize = 2_700_000;

/// A call on its input, with its buffers at hand.
type Run<'a> = Box<dyn FnMut(&[u8], u32) + 'a>;

/// The best times of some calls on this input, in nanoseconds for one call.
fn times(input: &[u8], runs: &mut [Run], places: usize, rounds: usize) -> Vec<f64> {
    let once = |run: &mut Run, input: &[u8], times: u32| {
        let start = Instant::now();
        run(input, times);
        start.elapsed().as_nanos() as f64 / times as f64
    };
    let times = ((ROUND / once(&mut runs[0], input, 3).max(1.0)) as u32).max(1);
    let mut arena = vec![0; input.len() + 257 * places];
    let mut mean = vec![0.0; runs.len()];
    for place in 0..places {
        let at = 257 * place;
        arena[at..at + input.len()].copy_from_slice(input);
        let mut best = vec![f64::MAX; runs.len()];
        for _ in 0..rounds {
            for (run, best) in runs.iter_mut().zip(&mut best) {
                *best = best.min(once(run, &arena[at..at + input.len()], times));
            }
        }
        mean.iter_mut().zip(best).for_each(|(mean, best)| *mean += best / places as f64);
    }
    mean
}

/// A table in Markdown: for each row its labels, its times and their ratios to the fast version's.
struct Table {
    text: String,
    fast: usize,
    logarithms: Vec<Vec<f64>>,
}

impl Table {
    fn new(names: &[&str], first: &str) -> Table {
        let fast = names.iter().position(|name| *name == "fast").expect("a fast version");
        let mut text = format!("| {first} | in | out |");
        names.iter().for_each(|name| write!(text, " {name} ns |").unwrap());
        for name in names.iter().filter(|name| **name != "fast") {
            write!(text, " {name} / fast |").unwrap();
        }
        let columns = 3 + 2 * names.len() - 1;
        writeln!(text, "\n|---|{}", "---:|".repeat(columns - 1)).unwrap();
        print!("{text}");
        Table { text, fast, logarithms: vec![Vec::new(); names.len()] }
    }

    fn row(&mut self, label: &str, input: usize, output: usize, times: &[f64]) {
        let mut line = format!("| {label} | {input} | {output} |");
        times.iter().for_each(|time| write!(line, " {time:.0} |").unwrap());
        for (at, time) in times.iter().enumerate() {
            let ratio = time / times[self.fast];
            self.logarithms[at].push(ratio.ln());
            if at != self.fast {
                write!(line, " {ratio:.2} |").unwrap();
            }
        }
        println!("{line}");
        writeln!(self.text, "{line}").unwrap();
    }

    /// With the geometric mean of the ratios.
    fn end(mut self) -> String {
        let columns = self.logarithms.len();
        let mut line = format!("| geometric mean | | |{}", " |".repeat(columns));
        for (_, logarithms) in self.logarithms.iter().enumerate().filter(|(at, _)| *at != self.fast) {
            let mean = (logarithms.iter().sum::<f64>() / logarithms.len().max(1) as f64).exp();
            write!(line, " {mean:.2} |").unwrap();
        }
        println!("{line}\n");
        writeln!(self.text, "{line}\n").unwrap();
        self.text
    }
}

/// The model and the versions beside it.
fn calls() -> Vec<(&'static str, Call)> {
    [("model", downgrade as Call)].into_iter().chain(versions::calls()).collect()
}

fn names<T>(calls: &[(&'static str, T)]) -> Vec<&'static str> {
    calls.iter().map(|(name, _)| *name).collect()
}

/// The answer of a call, and both buffers.
fn outcome(call: Call, row: &Row, rooms: (usize, usize)) -> (Answer, Vec<u8>, Vec<u8>) {
    let (mut e, mut h) = (vec![0; rooms.0], vec![0; rooms.1]);
    let answer = call(row.setting, &row.envelope, &row.header, &mut e, &mut h);
    (answer, e, h)
}

/// Ends the program where two versions differ.
fn compare(row: &Row, rooms: (usize, usize)) -> Answer {
    let calls = calls();
    let first = outcome(calls[0].1, row, rooms);
    for (name, call) in &calls[1..] {
        let other = outcome(*call, row, rooms);
        let label = &row.label;
        assert!(first == other, "{name} differs on {label}: {:?}, the model has {:?}", other.0, first.0);
    }
    first.0
}

/// All versions on one row in these rooms.
fn time_row(row: &Row, rooms: (usize, usize), places: usize, rounds: usize) -> Vec<f64> {
    let run = |(_, call): (&'static str, Call)| {
        let (mut e, mut h) = (vec![0; rooms.0], vec![0; rooms.1]);
        let run: Run = Box::new(move |header, times| {
            for _ in 0..times {
                black_box(call(black_box(row.setting), black_box(&row.envelope), black_box(header), &mut e, &mut h));
            }
        });
        run
    };
    let mut runs: Vec<Run> = calls().into_iter().map(run).collect();
    times(&row.header, &mut runs, places, rounds)
}

/// The whole call: kinds of header, in large and in tight buffers.
fn whole_calls(filter: &str) -> String {
    let mut table = Table::new(&names(&calls()), "whole call");
    for row in rows::rows().iter().filter(|row| row.label.contains(filter)) {
        let answer = compare(row, (ENVELOPE_ROOM, HEADER_ROOM));
        assert_eq!(answer.number, 0, "{}", row.label);
        let tight = (answer.envelope_len, answer.header_len);
        compare(row, tight);
        assert_eq!(compare(row, (tight.0, tight.1 - 1)).number, 8);
        for (buffers, rooms) in [("large", (ENVELOPE_ROOM, HEADER_ROOM)), ("tight", tight)] {
            let times = time_row(row, rooms, PLACES, ROUNDS);
            table.row(&format!("{}, {buffers}", row.label), row.header.len(), answer.header_len, &times);
        }
    }
    table.end()
}

/// The mailbox's call, in large and in tight buffers.
fn mailbox_calls(filter: &str) -> String {
    let calls: Vec<(&str, MailboxCall)> =
        [("model", downgrade_mailbox as MailboxCall)].into_iter().chain(versions::mailbox_calls()).collect();
    let mut table = Table::new(&names(&calls), "mailbox");
    for (label, header) in rows::mailbox_rows().into_iter().filter(|(label, _)| label.contains(filter)) {
        let outcome = |call: MailboxCall, room: usize| -> (MailboxAnswer, Vec<u8>) {
            let mut buffer = vec![0; room];
            (call(&header, &mut buffer), buffer)
        };
        let length = outcome(calls[0].1, HEADER_ROOM).0.length;
        for (buffers, room) in [("large", HEADER_ROOM), ("tight", length)] {
            let first = outcome(calls[0].1, room);
            assert!(calls.iter().all(|(_, call)| outcome(*call, room) == first), "{label}");
            let run = |(_, call): &(&str, MailboxCall)| {
                let (call, mut buffer) = (*call, vec![0; room]);
                let run: Run = Box::new(move |header, times| {
                    for _ in 0..times {
                        black_box(call(black_box(header), &mut buffer));
                    }
                });
                run
            };
            let mut runs: Vec<Run> = calls.iter().map(run).collect();
            let times = times(&header, &mut runs, PLACES, ROUNDS);
            table.row(&format!("{label}, {buffers}"), header.len(), length, &times);
        }
    }
    table.end()
}

/// All fields of a header, one call after another; the bytes of their texts.
fn read_all(call: ReadCall, header: &[u8], buffer: &mut [u8]) -> (Vec<ReadAnswer>, usize) {
    let (mut answers, mut place, mut length) = (Vec::new(), 0, 0);
    loop {
        let answer = call(header, place, buffer);
        if answer.number == reader::NONE {
            return (answers, length);
        }
        place = answer.next;
        length += answer.length;
        answers.push(answer);
    }
}

/// Reading what the call has written for the rows' headers.
fn read_calls(filter: &str) -> String {
    let calls: Vec<(&str, ReadCall)> =
        [("model", reader::read as ReadCall)].into_iter().chain(versions::read_calls()).collect();
    let mut table = Table::new(&names(&calls), "reader, all fields");
    let read = ["mixed 1K", "bulletin 3K", "Greek and addresses 30K", "one folded text 30K", "all ascii 30K"];
    for row in rows::rows().iter().filter(|row| read.contains(&row.label.as_str()) && row.label.contains(filter)) {
        let (answer, _, mut header) = outcome(downgrade, row, (ENVELOPE_ROOM, HEADER_ROOM));
        header.truncate(answer.header_len);
        let mut buffer = vec![0; header.len()];
        let first = read_all(calls[0].1, &header, &mut buffer);
        assert!(calls.iter().all(|(_, call)| read_all(*call, &header, &mut buffer) == first), "{}", row.label);
        let run = |(_, call): &(&str, ReadCall)| {
            let (call, mut buffer) = (*call, vec![0; header.len()]);
            let run: Run = Box::new(move |header, times| {
                for _ in 0..times {
                    black_box(read_all(call, black_box(header), &mut buffer));
                }
            });
            run
        };
        let mut runs: Vec<Run> = calls.iter().map(run).collect();
        let times = times(&header, &mut runs, 2, ROUNDS);
        table.row(&row.label, header.len(), first.1, &times);
    }
    table.end()
}

/// Nanoseconds for a byte of the header over its size: for the last version but the fast one.
fn growth(filter: &str) -> String {
    let (name, at) = last_version();
    let sizes = [1, 2, 4, 8, 16, 32];
    let mut text = format!("| {name}, ns for a byte of the header |");
    sizes.iter().for_each(|size| write!(text, " {size} KB |").unwrap());
    writeln!(text, " most / least |\n|---|{}", "---:|".repeat(sizes.len() + 1)).unwrap();
    print!("{text}");
    let labels: Vec<String> = rows::growing(1024).into_iter().map(|row| row.label).collect();
    let worst: Vec<&str> = worst::headers(1024).into_iter().map(|(label, _)| label).collect();
    for label in labels.iter().map(String::as_str).chain(worst).filter(|label| label.contains(filter)) {
        let mut line = format!("| {label} |");
        let (mut most, mut least) = (0f64, f64::MAX);
        for size in sizes {
            let row = sized(label, 1024 * size - 20);
            compare(&row, (ENVELOPE_ROOM, HEADER_ROOM));
            let time = time_row(&row, (ENVELOPE_ROOM, HEADER_ROOM), 1, 5)[at] / row.header.len() as f64;
            (most, least) = (most.max(time), least.min(time));
            write!(line, " {time:.2} |").unwrap();
        }
        writeln!(line, " {:.1} |", most / least).unwrap();
        print!("{line}");
        text += &line;
    }
    println!();
    text + "\n"
}

/// A row by its label and its size.
fn sized(label: &str, size: usize) -> Row {
    let usual = rows::growing(size).into_iter().find(|row| row.label == label);
    usual.unwrap_or_else(|| {
        let (_, header) = worst::headers(size).into_iter().find(|(known, _)| *known == label).expect("a label");
        Row { label: label.into(), setting: 0, envelope: rows::ASCII_ENVELOPE.into(), header }
    })
}

/// The proved call where it is there, else the fast version; and its place among the calls.
fn last_version() -> (&'static str, usize) {
    let calls = calls();
    let at = calls.iter().position(|(name, _)| *name == "proved").unwrap_or(calls.len() - 1);
    (calls[at].0, at)
}

/// The worst headers of 32 KB, set against a usual one of that size.
fn worst_headers(filter: &str) -> String {
    let (name, at) = last_version();
    let mut text = format!("| {name}, 32 KB | answer | out | microseconds | / mixed |\n|---|---:|---:|---:|---:|\n");
    print!("{text}");
    let usual = time_row(&sized("mixed", 32_700), (ENVELOPE_ROOM, HEADER_ROOM), 1, 20)[at];
    let all = worst::headers(32_760).into_iter().chain(worst::largest()).filter(|(label, _)| label.contains(filter));
    for (label, header) in all {
        let row = Row { label: label.into(), setting: 0, envelope: rows::ASCII_ENVELOPE.into(), header };
        let answer = compare(&row, (ENVELOPE_ROOM, HEADER_ROOM));
        let time = time_row(&row, (ENVELOPE_ROOM, HEADER_ROOM), 1, 5)[at];
        let (number, length) = (answer.number, answer.header_len);
        let line = format!("| {label} | {number} | {length} | {:.0} | {:.1} |", time / 1000.0, time / usual);
        println!("{line}");
        writeln!(text, "{line}").unwrap();
    }
    println!();
    text + "\n"
}

/// Made-up inputs: every version must answer alike.
fn compare_made_up(count: usize) {
    let mut r = Random::new(33);
    for _ in 0..count {
        let setting = generate::setting(&mut r);
        let (envelope, header) = generate::input(&mut r, setting);
        let row = Row { label: format!("{:?}", header.escape_ascii().to_string()), setting, envelope, header };
        let whole = outcome(downgrade, &row, (ENVELOPE_ROOM, 80 * row.header.len() + 20_600)).0;
        let short = r.below(3);
        compare(&row, (whole.envelope_len + 1 - r.below(2), (whole.header_len + 1).saturating_sub(short)));
    }
    println!("{count} made-up inputs answered alike\n");
}

fn option(name: &str) -> Option<String> {
    std::env::args().skip_while(|argument| argument != name).nth(1)
}

/// Between the two lines of the file.
fn write_file(path: &str, tables: &str) {
    let old = std::fs::read_to_string(path).expect("the file");
    let (before, rest) = old.split_once("<!-- bench -->\n").expect("a line <!-- bench -->");
    let (_, after) = rest.split_once("<!-- end of bench -->\n").expect("a line <!-- end of bench -->");
    let new = format!("{before}<!-- bench -->\n{tables}<!-- end of bench -->\n{after}");
    std::fs::write(path, new).expect("the file");
}

fn main() {
    let filter = std::env::args().nth(1).filter(|argument| !argument.starts_with("--")).unwrap_or_default();
    compare_made_up(option("--inputs").map_or(20_000, |count| count.parse().expect("a number")));
    let mut tables = format!(
        "Nanoseconds for one call: the best of {ROUNDS} rounds of {:.2} ms at each of {PLACES} places of the header in memory, the\n\
         mean over the places, all versions by turns in one process. Large buffers have {ENVELOPE_ROOM} and {HEADER_ROOM} bytes,\n\
         tight ones just what is written. A ratio over 1 means slower than the fast version in plain Rust.\n\n",
        ROUND / 1e6
    );
    println!("{tables}");
    for table in [whole_calls, mailbox_calls, read_calls, worst_headers, growth] {
        tables += &table(&filter);
    }
    if let Some(path) = option("--write") {
        write_file(&path, &tables);
    }
}
