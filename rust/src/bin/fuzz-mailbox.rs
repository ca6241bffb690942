//! The mailbox's call: the fast version beside the model, and with the feature `proved` the proved call, on made-up headers.
//!
//!     fuzz-mailbox [--seed N] [--count N] [--seconds N]

use hennelaku_model::address_list::Parts;
use hennelaku_model::call::{Profile, Setting};
use hennelaku_model::checks::{fields, unlike_rfc2231, unlike_rfc5322};
use hennelaku_model::generate::{self, Random};
use hennelaku_model::harness::{filled, pattern, Met, Run, GUARD};
use hennelaku_model::header::{mailbox_kind, next_non_ascii, unfolded, Kind};
use hennelaku_model::versions::{self, MailboxCall};
use hennelaku_model::{address_list, comment, downgrade, downgrade_mailbox, MailboxAnswer};
use std::process::exit;

/// What a call leaves: its answer, and the buffer with its guards.
#[derive(PartialEq)]
struct Outcome {
    answer: MailboxAnswer,
    buffer: Vec<u8>,
}

fn outcome(call: MailboxCall, header: &[u8], room: usize, salt: u8) -> Outcome {
    let mut buffer = filled(room, salt);
    let answer = call(header, &mut buffer[GUARD..GUARD + room]);
    Outcome { answer, buffer }
}

/// [12.11]: "The answers are 0, 1, 5, 6, 8, in this order, with [8]'s offset." After a refusal the buffer is as before.
fn fault(header: &[u8], room: usize, got: &Outcome, salt: u8) -> Option<String> {
    let a = got.answer;
    let good = match a.number {
        0 => a.place == 0 && a.offset == 0 && a.length <= room,
        1 => a.place == 1 && a.offset == 0 && a.length == 0,
        5 | 6 => a.offset <= header.len() && a.length == 0,
        8 => a.place > room && a.offset == 0 && a.length == 0,
        _ => false,
    };
    if !good {
        return Some("an answer that the call does not have".into());
    }
    for (at, &b) in got.buffer.iter().enumerate() {
        let written = at >= GUARD && at < GUARD + a.length;
        if !written && b != pattern(at, salt) {
            return Some(format!("buffer changed at {} past its length", at as isize - GUARD as isize));
        }
        if written && b > 127 {
            return Some(format!("buffer not ASCII at {}", at - GUARD));
        }
    }
    None
}

/// What the papers and the RFCs say of the outgoing header, seen from it alone.
fn unlike_papers(header: &[u8], got: &Outcome) -> Option<String> {
    if got.answer.number != 0 {
        return None;
    }
    let out = &got.buffer[GUARD..GUARD + got.answer.length];
    if out.split(|&b| b == b'\n').any(|line| line.len() > 999) {
        return Some("a line of more than 998 bytes".into());
    }
    // [12]: "no copies of address fields are added"
    if fields(out).len() != fields(header).len() {
        return Some("another number of fields".into());
    }
    unlike_rfc5322(Profile::Mailbox, header, out).or_else(|| unlike_rfc2231(header, out))
}

fn show(label: &str, header: &[u8], room: usize, model: &Outcome, other: (&str, &Outcome), why: &str) -> ! {
    println!("difference at {label}, {}: {why}", other.0);
    println!("header ({} bytes): \"{}\"", header.len(), header.escape_ascii());
    println!("room {room}");
    for (name, got) in [("model", model), other] {
        println!("{name}: {:?}", got.answer);
        let end = got.buffer.len().min(GUARD.saturating_add(got.answer.length));
        println!("  \"{}\"", got.buffer[GUARD..end].escape_ascii());
    }
    exit(1);
}

/// All calls on one header; what the model left.
fn compare(header: &[u8], room: usize, calls: &[(&str, MailboxCall)], salt: u8, label: &str) -> Outcome {
    let model = outcome(downgrade_mailbox, header, room, salt);
    if let Some(why) = fault(header, room, &model, salt).or_else(|| unlike_papers(header, &model)) {
        show(label, header, room, &model, ("model", &model), &why);
    }
    for (name, call) in calls {
        let other = outcome(*call, header, room, salt);
        if let Some(why) = fault(header, room, &other, salt) {
            show(label, header, room, &model, (name, &other), &why);
        }
        if model != other {
            show(label, header, room, &model, (name, &other), "answers or bytes differ");
        }
    }
    model
}

/// Rooms just right, one short, zero, large; and those from which on a call need not measure.
fn room(r: &mut Random, whole: MailboxAnswer, header: &[u8]) -> usize {
    let h = whole.length;
    match r.below(12) {
        _ if whole.number != 0 => r.below(100),
        0..=3 => h,
        4 => h.saturating_sub(1),
        5 => 0,
        6 => r.below(h + 200),
        7 => 30 * header.len() + 20_600 - r.below(2),
        8 => 80 * header.len() + 20_600 - r.below(2),
        _ => h + r.below(3000),
    }
}

/// What became of the address fields.
#[derive(Default)]
struct Addresses {
    removed: usize,
    removed_with_phrase: usize,
    groups: usize,
    kept: usize,
    phrase: bool,
}

impl Parts for Addresses {
    fn phrase(&mut self, phrase: &[u8]) {
        self.phrase = !phrase.is_ascii();
    }
    fn bare(&mut self, address: &[u8]) {
        self.phrase = false;
        self.angle(address);
    }
    fn angle(&mut self, address: &[u8]) {
        self.removed += !address.is_ascii() as usize;
        self.removed_with_phrase += (!address.is_ascii() && self.phrase) as usize;
        self.kept += address.is_ascii() as usize;
        self.phrase = false;
    }
    fn alternative(&mut self, _address: &[u8]) {}
    fn mark(&mut self, _mark: u8) {
        self.phrase = false;
    }
    fn comment(&mut self, _comment: &[u8]) {}
    fn removed_members(&mut self, _members: &[u8]) {
        self.groups += 1;
    }
}

/// Looks at a header and what the model made of it.
fn look(met: &mut Met, header: &[u8], got: &Outcome) {
    if got.answer.number != 0 {
        return;
    }
    let out = &got.buffer[GUARD..GUARD + got.answer.length];
    met.count("header copied whole", out == header);
    let (mut addresses, mut unfit, mut alternative) = (Addresses::default(), 0, 0);
    let (mut ids, mut ids_encapsulated, mut dates, mut others, mut incoming) = (0, 0, 0, 0, 0);
    let mut from = 0;
    while let Some(field) = next_non_ascii(header, from) {
        from = field.end;
        let mut text = Vec::new();
        unfolded(field.folded_text(), |part| text.extend_from_slice(part));
        let outside = comment::non_ascii_outside(field.value);
        match mailbox_kind(field.name) {
            Kind::Address if address_list::replaces(&text, Profile::Mailbox).is_none() => {
                unfit += 1;
                alternative += address_list::replaces(&text, Profile::Relay(Setting::Spool)).is_some() as usize;
            }
            Kind::Address => {
                let _ = address_list::list(&text, Profile::Mailbox, &mut addresses);
            }
            Kind::EncapsulatedOutsideComments if outside => ids_encapsulated += 1,
            Kind::EncapsulatedOutsideComments => ids += 1,
            Kind::HeldOutsideComments => {
                dates += (Profile::Relay(Setting::Spool).kind(field.name) == Kind::Other) as usize
            }
            Kind::Plain => {
                others += (Profile::Relay(Setting::Spool).kind(field.name) == Kind::Other) as usize;
                incoming += field.name.to_ascii_lowercase().starts_with(b"downgraded-") as usize;
            }
            _ => {}
        }
    }
    met.count("address removed", addresses.removed > 0);
    met.count("address removed after an encoded phrase", addresses.removed_with_phrase > 0);
    met.count("address kept", addresses.kept > 0);
    met.count("group removed", addresses.groups > 0);
    met.count("address field that does not fit", unfit > 0);
    met.count("address field that fits in the spool only", alternative > 0);
    met.count("Message-ID family, comments rewritten", ids > 0);
    met.count("Message-ID family, encapsulated", ids_encapsulated > 0);
    met.count("name of RFC 6857's list, comments rewritten", dates > 0);
    met.count("other name as plain text", others > 0);
    met.count("Downgraded- field that came in", incoming > 0);
    let plain = b"MAIL FROM:<a@x>\r\nRCPT TO:<b@y>\r\n";
    let relay = downgrade(1, plain, header, &mut [0; 100], &mut vec![0; 80 * header.len() + 20_600]);
    met.count("header that the relay refuses", relay.number == 6);
    met.count("header that the relay makes longer", relay.number == 0 && relay.header_len > got.answer.length);
}

fn main() {
    let calls = versions::mailbox_calls();
    let mut run = Run::from_arguments();
    let mut r = Random::new(run.seed);
    let mut scratch = vec![0; 2_700_000];
    let mut numbers = [0; 9];
    let mut met = Met::default();
    while let Some(label) = run.begin_next() {
        let header = generate::mailbox_header(&mut r);
        let whole = downgrade_mailbox(&header, &mut scratch);
        let room = room(&mut r, whole, &header);
        let got = compare(&header, room, &calls, r.number() as u8, &label);
        numbers[got.answer.number as usize] += 1;
        look(&mut met, &header, &got);
    }
    for number in [0, 1, 5, 6, 8] {
        println!("number {number}: {}", numbers[number]);
    }
    print!("{met}");
    let names: Vec<&str> = calls.iter().map(|(name, _)| *name).collect();
    println!("{} inputs, 0 differences (model, {})", run.done, names.join(", "));
}
