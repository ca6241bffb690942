//! The fast version beside the model, and with the feature `proved` the proved call: equal answers and equal bytes on made-up
//! inputs.
//!
//!     fuzz [--seed N] [--count N] [--seconds N]

use hennelaku_model::address_list::Parts;
use hennelaku_model::call::{Profile, Setting, ENVELOPE, HEADER, NEITHER};
use hennelaku_model::checks::{unlike_rfc2231, unlike_rfc5322};
use hennelaku_model::comment::{self, Part};
use hennelaku_model::generate::{self, Random};
use hennelaku_model::harness::{filled, pattern, Met, Run, GUARD};
use hennelaku_model::header::{kind, next_non_ascii, Field, Kind};
use hennelaku_model::received::{self, Held, Stretch};
use hennelaku_model::utf8::char_len;
use hennelaku_model::versions::{self, Call};
use hennelaku_model::words::{base64_size, first_word, Encoding, SIZE};
use hennelaku_model::{address_list, downgrade, header, parameter, Answer};
use std::cmp::Ordering;
use std::process::exit;

/// What a call leaves: its answer, and both buffers with their guards.
#[derive(PartialEq)]
struct Outcome {
    answer: Answer,
    envelope: Vec<u8>,
    header: Vec<u8>,
}

fn outcome(call: Call, input: &Input, salt: u8) -> Outcome {
    let mut envelope = filled(input.envelope_room, salt);
    let mut header = filled(input.header_room, salt);
    let answer = call(
        input.setting,
        &input.envelope,
        &input.header,
        &mut envelope[GUARD..GUARD + input.envelope_room],
        &mut header[GUARD..GUARD + input.header_room],
    );
    Outcome { answer, envelope, header }
}

struct Input {
    setting: u64,
    envelope: Vec<u8>,
    header: Vec<u8>,
    envelope_room: usize,
    header_room: usize,
}

/// "A refusal changes no byte of either buffer and gives both lengths as 0. After 0 the bytes past each length are as
/// before."
fn fault(input: &Input, got: &Outcome, salt: u8) -> Option<String> {
    let a = got.answer;
    let known = match Setting::new(input.setting) {
        Setting::Spool => a.number <= 8,
        Setting::Current => a.number <= 10 && a.number != 4 && a.number != 9,
    };
    if !known {
        return Some("a number that the call does not have".into());
    }
    if a.number != 0 && (a.envelope_len, a.header_len) != (0, 0) {
        return Some("lengths after a refusal".into());
    }
    if a.number == 0 && a.place != 0 {
        return Some("a place after 0".into());
    }
    let (about, end) = match (a.number, a.input) {
        (0, _) => (NEITHER, 0),
        (1, _) => (if a.place == 0 { ENVELOPE } else { HEADER }, 0),
        (7, _) => (ENVELOPE, 0),
        (8, _) => (HEADER, 0),
        (5, _) | (6, HEADER) => (HEADER, input.header.len()),
        _ => (ENVELOPE, input.envelope.len()),
    };
    if a.input != about {
        return Some(format!("about input {} and not {about}", a.input));
    }
    if a.offset > end {
        return Some(format!("an offset past {end}"));
    }
    if a.envelope_len > input.envelope_room || a.header_len > input.header_room {
        return Some("a length past the room".into());
    }
    for (name, buffer, len) in [("envelope", &got.envelope, a.envelope_len), ("header", &got.header, a.header_len)] {
        for (at, &b) in buffer.iter().enumerate() {
            let written = at >= GUARD && at < GUARD + len;
            if !written && b != pattern(at, salt) {
                return Some(format!(
                    "{name} buffer changed at {} past its length {len}",
                    at as isize - GUARD as isize
                ));
            }
            if written && b > 127 {
                return Some(format!("{name} buffer not ASCII at {}", at - GUARD));
            }
        }
    }
    None
}

/// The header room from which on the proved call does not measure before it writes (`HENNELAKU_HEADER_ROOM_FOR`).
fn ample(header: &[u8]) -> usize {
    30 * header.len() + 20600
}

/// The longest that any header can become, [7]'s parts with it.
const LARGEST: usize = 2_700_000;

/// Rooms just right, one short, zero, large, any; and those at which the proved call starts to write without measuring.
fn rooms(r: &mut Random, whole: Answer, header: &[u8]) -> (usize, usize) {
    let (e, h) = (whole.envelope_len, whole.header_len);
    match r.below(26) {
        24 => (e, ample(header) + 50 * header.len() - 1),
        25 => (e, ample(header) + 50 * header.len()),
        20 => (e, ample(header) - 1),
        21 => (e, ample(header)),
        22 => (e + r.below(300), ample(header) + r.below(3000)),
        23 => (e - 1, ample(header)),
        0..=9 => (e, h),
        10 => (e - 1, h),
        11 => (e, h.saturating_sub(1)),
        12 => (e - 1, h.saturating_sub(1)),
        13 => (0, 0),
        14 => (e, 0),
        15 => (r.below(e + 20), r.below(h + 200)),
        16 => (e + r.below(4), r.below(h + 1)),
        17 => (e + 1, h + 1),
        _ => (e + r.below(300), h + r.below(3000)),
    }
}

fn has(bytes: &[u8], part: &[u8]) -> bool {
    bytes.windows(part.len()).any(|window| window == part)
}

/// The length of the name before encoded words: plain text keeps its name.
fn written_name_len(field: &Field) -> usize {
    field.name.len() + if kind(field.name) == Kind::Plain { 0 } else { b"Downgraded-".len() }
}

/// How the first character stands to the room beside its name: fits by Q, fills it so, fits by B alone, fills it so,
/// lacks one by both, lacks more.
fn first_line(name_len: usize, text: &[u8]) -> usize {
    let len = char_len(text[0]);
    let q = name_len + text[..len].iter().map(|&b| SIZE[b as usize] as usize).sum::<usize>();
    let b = name_len + base64_size(len);
    match (q.cmp(&62), b.cmp(&62)) {
        (Ordering::Less, _) => 0,
        (Ordering::Equal, _) => 1,
        (Ordering::Greater, Ordering::Less) => 2,
        (Ordering::Greater, Ordering::Equal) => 3,
        (Ordering::Greater, Ordering::Greater) if q.min(b) == 63 => 4,
        (Ordering::Greater, Ordering::Greater) => 5,
    }
}

/// The words of an outgoing header.
#[derive(Default)]
struct Words {
    q: usize,
    b: usize,
    /// B words with no padding, one `=`, two.
    padded: [usize; 3],
    /// Words of one kind straight after one of the other.
    b_after_q: usize,
    q_after_b: usize,
    /// B words on a name's line, and on lines of their own.
    beside_name: usize,
    own_line: usize,
}

impl Words {
    fn look(out: &[u8]) -> Words {
        let mut words = Words::default();
        let mut last = None;
        for line in out.split(|&b| b == b'\n') {
            let line = line.strip_suffix(b"\r").unwrap_or(line);
            let place = |open: &[u8]| line.windows(open.len()).position(|part| part == open);
            let encoding = if !line.ends_with(b"?=") {
                None
            } else if let Some(at) = place(b" =?UTF-8?B?") {
                words.b += 1;
                words.beside_name += (at > 0) as usize;
                words.own_line += (at == 0) as usize;
                let digits = &line[at + 11..line.len() - 2];
                words.padded[digits.iter().rev().take_while(|&&b| b == b'=').count().min(2)] += 1;
                Some(Encoding::B)
            } else if place(b" =?UTF-8?Q?").is_some() {
                words.q += 1;
                Some(Encoding::Q)
            } else {
                None
            };
            let goes_on = line.starts_with(b" ");
            words.b_after_q += (goes_on && last == Some(Encoding::Q) && encoding == Some(Encoding::B)) as usize;
            words.q_after_b += (goes_on && last == Some(Encoding::B) && encoding == Some(Encoding::Q)) as usize;
            last = encoding;
        }
        words
    }
}

/// Whether a word holds as many characters by B as by Q, in less room, without the end of the text.
fn equal_choice(text: &[u8], room: usize) -> bool {
    let word = first_word(text, room);
    let fits_b = |len: usize| base64_size(len) <= room;
    let next = word.len + text.get(word.len).map_or(0, |&b| char_len(b));
    word.encoding == Encoding::Q && word.len > 0 && word.len < text.len() && fits_b(word.len) && !fits_b(next)
}

/// Looks at an input and what the model made of it.
fn look(met: &mut Met, input: &Input, got: &Outcome) {
    let number = got.answer.number;
    let setting = Setting::new(input.setting);
    let profile = Profile::Relay(setting);
    let current = setting == Setting::Current;
    let lines = |bytes: &[u8], len: usize| bytes.split(|&b| b == b'\n').any(|line| line.len() == len + 1);
    let envelope_lines = input.envelope.iter().filter(|&&b| b == b'\n').count();
    met.count("1 for the envelope", number == 1 && got.answer.place == 0);
    met.count("1 for the header", number == 1 && got.answer.place == 1);
    met.count("2 at line 0", number == 2 && got.answer.place == 0);
    met.count("2 at line 101", number == 2 && got.answer.place == 101);
    met.count("100 RCPT lines", envelope_lines == 101 && !matches!(number, 1..=4));
    met.count("envelope line of 998", lines(&input.envelope, 998) && !matches!(number, 1..=4));
    met.count("envelope line of 999", lines(&input.envelope, 999) && number == 2);
    met.count("header line of 998", lines(&input.header, 998) && matches!(number, 0 | 6..=8));
    met.count("header line of 999", lines(&input.header, 999) && number == 5);
    met.count("6 for an ORCPT", number == 6 && got.answer.input == ENVELOPE);
    met.count("6 for a field", number == 6 && got.answer.input == HEADER);
    met.count("6 for a field with a comment", number == 6 && held_beside_a_comment(&input.header));
    let parameters = held_parameters(&input.header, got.answer);
    met.count("6 for a parameter's name with a *", parameters == Some(parameter::Held::Star));
    met.count("6 for a parameter's name that is shared", parameters == Some(parameter::Held::Shared));
    met.count("6 for a parameter without room for a character", parameters == Some(parameter::Held::Room));
    met.count("6 for non-ASCII outside parameters and comments", parameters == Some(parameter::Held::Elsewhere));
    let received = held_received(&input.header, got.answer);
    met.count("6 for a Received with a for without an address", received == Some(Held::NoAddress));
    met.count("6 for a Received with non-ASCII elsewhere", received == Some(Held::Elsewhere));
    met.count("6 for a Received with a line past 998", received == Some(Held::Line));
    met.count("current message", current);
    met.count("current message by a number whose last 8 bits are 0", current && input.setting as u8 == 0);
    met.count("current message by a number whose last 32 bits are 0", current && input.setting as u32 == 0);
    let in_spool = if number == 10 { spool_answer(input) } else { got.answer };
    met.count("10 where the spool has 0, 5, 6, 7 or 8", number == 10 && matches!(in_spool.number, 0 | 5..=8));
    let same_offset = in_spool.offset == got.answer.offset;
    met.count("10 where the spool has 4 at that byte", number == 10 && in_spool.number == 4 && same_offset);
    let later = in_spool.place > got.answer.place && matches!(in_spool.number, 2..=4);
    met.count("10 before a fault of the spool on a later line", number == 10 && later);
    met.count("3 in a current message", number == 3 && current);
    met.count("current message that is written", number == 0 && current);
    if number != 0 {
        return;
    }
    let out = &got.header[GUARD..GUARD + got.answer.header_len];
    met.count("Downgraded-Mail-From", out.starts_with(b"Downgraded-Mail-From: =?UTF-8?"));
    met.count("Downgraded-Rcpt-To", has(out, b"Downgraded-Rcpt-To: =?UTF-8?"));
    met.count("several RCPT lines, replaced", envelope_lines > 2 && got.answer.envelope_len < input.envelope.len());
    met.count("header copied whole", out == input.header);
    let mut fields = [0; 6];
    let mut comments = Comments::default();
    let mut groups = Groups::default();
    let mut clauses = Clauses::default();
    let mut parameters = Parameters::default();
    let mut no_longer_fit = 0;
    let (mut names_of_76, mut folded, mut words_of_900) = (0, 0, 0);
    let mut first_lines = [0; 6];
    let mut equal_choices = 0;
    let mut from = 0;
    while let Some(field) = next_non_ascii(&input.header, from) {
        let mut text = Vec::new();
        header::unfolded(field.folded_text(), |part| text.extend_from_slice(part));
        let at = match kind(field.name) {
            Kind::Plain => 0,
            Kind::Other | Kind::Held | Kind::EncapsulatedOutsideComments => 1,
            Kind::HeldOutsideComments => {
                comment::stretches(field.value, |stretch, is_comment| {
                    if is_comment {
                        comments.look(stretch, false);
                    }
                });
                from = field.end;
                continue;
            }
            Kind::Received => {
                clauses.look(&field);
                from = field.end;
                continue;
            }
            Kind::Parameters => {
                parameters.look(&field);
                from = field.end;
                continue;
            }
            Kind::Address => match address_list::replaces(&text, profile) {
                None => 2,
                Some(false) => 3,
                Some(true) if has(&text, b">>") => 4,
                Some(true) => 5,
            },
        };
        fields[at] += 1;
        no_longer_fit += (at == 2 && address_list::replaces(&text, Profile::Relay(Setting::Spool)).is_some()) as usize;
        if at < 3 {
            first_lines[first_line(written_name_len(&field), &text)] += 1;
            equal_choices += equal_choice(&text, 62usize.saturating_sub(written_name_len(&field))) as usize;
        }
        if at > 2 {
            let _ = address_list::list(&text, profile, &mut comments);
            let _ = address_list::list(&text, profile, &mut groups);
            words_of_900 += text.split(|&b| b" \t<>,:;\"".contains(&b)).any(|word| word.len() == 900) as usize;
        }
        names_of_76 += (field.name.len() == 76) as usize;
        folded += field.value.contains(&b'\n') as usize;
        from = field.end;
    }
    met.count("first character that fits beside the name by Q", first_lines[0] > 0);
    met.count("first character that fills the name's line by Q", first_lines[1] > 0);
    met.count("first character that fits beside the name by B alone", first_lines[2] > 0);
    met.count("first character that fills the name's line by B alone", first_lines[3] > 0);
    met.count("first character one too long for the name's line by both", first_lines[4] > 0);
    met.count("first character longer than that", first_lines[5] > 0);
    let words = Words::look(out);
    met.count("Q word", words.q > 0);
    met.count("B word", words.b > 0);
    met.count("B word on a name's line", words.beside_name > 0);
    met.count("B word on a line of its own", words.own_line > 0);
    met.count("B word without padding", words.padded[0] > 0);
    met.count("B word with one =", words.padded[1] > 0);
    met.count("B word with two =", words.padded[2] > 0);
    met.count("B word after a Q word", words.b_after_q > 0);
    met.count("Q word after a B word", words.q_after_b > 0);
    met.count("Q word where B holds as many, more to come", equal_choices > 0);
    met.count("plain text field", fields[0] > 0);
    met.count("field encapsulated", fields[1] > 0);
    met.count("address field that does not fit", fields[2] > 0);
    met.count("address field that fits in the spool only", no_longer_fit > 0);
    met.count("address field with a phrase encoded alone", fields[3] > 0);
    met.count("address field with an alternative", fields[4] > 0);
    met.count("address field with one removed", fields[5] > 0);
    met.count("group kept", groups.kept > 0);
    met.count("group kept that has an alternative", groups.kept_with_alternative > 0);
    met.count("group that loses a member", groups.removed > 0);
    met.count("group that loses a member, beside one with an alternative", groups.removed_with_alternative > 0);
    met.count("group that loses a member, a comment before its colon", groups.comment_before_colon > 0);
    met.count("group that loses a member, a comment among its members", groups.comment_among_members > 0);
    met.count("group that loses a member, a comment behind it", groups.comment_behind > 0);
    met.count("group that loses a member, a comma behind it", groups.comma_behind > 0);
    met.count("group that loses a member, of more than 1,000 bytes", groups.longest > 1000);
    met.count("word or address of 900 that fits", words_of_900 > 0);
    met.count("name of 76", names_of_76 > 0);
    met.count("folded field", folded > 0);
    met.count("room that is not measured for", input.header_room >= ample(&input.header));
    met.count("room one short of that", input.header_room + 1 == ample(&input.header));
    met.count("comment rewritten", comments.rewritten > 0);
    met.count("comment rewritten in an address field", comments.rewritten_in_address_fields > 0);
    met.count("comment rewritten in another field", comments.rewritten > comments.rewritten_in_address_fields);
    met.count("comment rewritten inside another", comments.inner > 0);
    met.count("comment rewritten without escapes", comments.escapes > 0);
    met.count("comment rewritten without folds, outside address fields", comments.folds > 0);
    met.count("comment with a blank run dropped", comments.blank_runs > 0);
    met.count("comment with a run of 900 that fits", comments.runs_of_900 > 0);
    met.count("comment more than 1,000 deep", comments.deepest > 1000);
    met.count("comma after a comment", comments.commas > 0);
    met.count("Received with a clause removed", clauses.removed > 0);
    met.count("Received with several clauses removed", clauses.several > 0);
    met.count("Received with a clause removed, one kept", clauses.beside_one_kept > 0);
    met.count("Received with a clause removed, folds before it", clauses.folds > 0);
    met.count("Received with a clause removed, a comment rewritten", clauses.beside_a_comment > 0);
    met.count("Received with a clause removed behind an unclosed parenthesis", clauses.unclosed > 0);
    met.count("Received with a clause removed, a parenthesis in its address", clauses.parenthesis > 0);
    met.count("Received with nothing left", clauses.nothing_left > 0);
    met.count("Received with a line that grew to 998", clauses.line_of_998 > 0);
    met.count("Received with a comment rewritten, no clause removed", clauses.comment_alone > 0);
    met.count("Received that ends in a for", clauses.ends_in_for > 0);
    parameters.count(met);
}

/// What a message from the spool would be answered, with all the room it wants.
fn spool_answer(input: &Input) -> Answer {
    downgrade(0, &input.envelope, &input.header, &mut vec![0; 17_000], &mut vec![0; LARGEST])
}

/// What became of the Received fields of a header that is written.
#[derive(Default)]
struct Clauses {
    removed: usize,
    several: usize,
    beside_one_kept: usize,
    folds: usize,
    beside_a_comment: usize,
    unclosed: usize,
    parenthesis: usize,
    nothing_left: usize,
    line_of_998: usize,
    comment_alone: usize,
    ends_in_for: usize,
}

impl Clauses {
    /// A field that is not held.
    fn look(&mut self, field: &Field) {
        let (mut removed, mut kept, mut comments, mut left) = (0, 0, 0, Vec::new());
        let (mut open, mut unclosed, mut fold, mut parenthesis) = (false, false, false, false);
        let _ = received::stretches(field.value, |stretch, kind| match kind {
            Stretch::Comment => {
                comments += !stretch.is_ascii() as usize;
                left.extend_from_slice(stretch);
            }
            Stretch::Clause => {
                removed += 1;
                unclosed |= open;
                fold |= stretch.starts_with(b"\r\n");
                parenthesis |= stretch.contains(&b'(');
            }
            Stretch::Other => {
                open |= stretch.contains(&b'(') && !stretch.contains(&b'"') && !stretch.contains(&b'[');
                kept += has(&stretch.to_ascii_lowercase(), b" for <") as usize;
                left.extend_from_slice(stretch);
            }
        });
        self.ends_in_for += left.to_ascii_lowercase().ends_with(b" for") as usize;
        self.comment_alone += (comments > 0 && removed == 0) as usize;
        if removed == 0 {
            return;
        }
        self.removed += 1;
        self.several += (removed > 1) as usize;
        self.beside_one_kept += (kept > 0) as usize;
        self.folds += fold as usize;
        self.beside_a_comment += (comments > 0) as usize;
        self.unclosed += unclosed as usize;
        self.parenthesis += parenthesis as usize;
        self.nothing_left += left.is_empty() as usize;
        let grown = [field.name, b":", &left].concat();
        self.line_of_998 += (comments == 0 && grown.split(|&b| b == b'\n').any(|line| line.len() > 997)) as usize;
    }
}

/// The field that a 6 is about.
fn held_field(header: &[u8], answer: Answer) -> Option<Field<'_>> {
    let mut from = 0;
    while (answer.number, answer.input) == (6, HEADER) && from <= answer.offset {
        let field = next_non_ascii(header, from)?;
        if field.end > answer.offset {
            return Some(field);
        }
        from = field.end;
    }
    None
}

/// Why it is held, if it is a Received.
fn held_received(header: &[u8], answer: Answer) -> Option<Held> {
    let field = held_field(header, answer).filter(|field| kind(field.name) == Kind::Received)?;
    received::check(field.name.len(), field.value).err()
}

/// Why it is held, if it is one with parameters.
fn held_parameters(header: &[u8], answer: Answer) -> Option<parameter::Held> {
    let field = held_field(header, answer).filter(|field| kind(field.name) == Kind::Parameters)?;
    parameter::check(field.value).err()
}

/// What became of the fields with parameters of a header that is written.
#[derive(Default)]
struct Parameters {
    converted: usize,
    alone: usize,
    full_line: usize,
    one_over: usize,
    most_parts: usize,
    several: usize,
    beside_ascii: usize,
    beside_a_comment: usize,
    escapes: usize,
    folds: usize,
    unclosed: usize,
    comment_alone: usize,
    behind: usize,
}

impl Parameters {
    /// A field that is not held.
    fn look(&mut self, field: &Field) {
        let (mut converted, mut ascii, mut comments, mut open, mut last) = (0, 0, 0, false, false);
        for part in parameter::parts(field.value) {
            let was = std::mem::replace(&mut last, false);
            match part {
                parameter::Part::Comment(comment) => comments += !comment.is_ascii() as usize,
                parameter::Part::Other(other) => {
                    open |= other.contains(&b'(') && !other.contains(&b'"');
                    self.behind += (was && !other.trim_ascii().is_empty() && other.trim_ascii() != b";") as usize;
                }
                parameter::Part::Parameter(found) if !parameter::is_converted(&found) => ascii += 1,
                parameter::Part::Parameter(found) => {
                    converted += 1;
                    last = true;
                    self.unclosed += open as usize;
                    self.look_at(&found);
                }
            }
        }
        self.converted += converted;
        self.several += (converted > 1) as usize;
        self.beside_ascii += (converted > 0 && ascii > 0) as usize;
        self.beside_a_comment += (converted > 0 && comments > 0) as usize;
        self.comment_alone += (converted == 0 && comments > 0) as usize;
    }

    fn look_at(&mut self, found: &parameter::Parameter) {
        let text = parameter::text(found.value);
        let pieces = parameter::pieces(found.name.len(), &text).unwrap_or_default();
        let size: usize = pieces.iter().map(Vec::len).sum();
        let room = parameter::room(found.name.len(), None);
        self.alone += (pieces.len() == 1) as usize;
        self.full_line += (size == room) as usize;
        self.one_over += (size == room + 1) as usize;
        self.most_parts = self.most_parts.max(pieces.len());
        self.escapes += (found.value.starts_with(b"\"") && found.value.contains(&b'\\')) as usize;
        self.folds += found.value.contains(&b'\n') as usize;
    }

    fn count(&self, met: &mut Met) {
        met.count("parameter converted", self.converted > 0);
        met.count("parameter converted on one line", self.alone > 0);
        met.count("parameter that fills one line", self.full_line > 0);
        met.count("parameter one too long for one line", self.one_over > 0);
        met.count("parameter in parts", self.most_parts > 1);
        met.count("parameter in 10 parts", self.most_parts == 10);
        met.count("parameter in more than 10 parts", self.most_parts > 10);
        met.count("parameter in more than 100 parts", self.most_parts > 100);
        met.count("parameters converted, several of a field", self.several > 0);
        met.count("parameter converted beside one that is ASCII", self.beside_ascii > 0);
        met.count("parameter converted beside a comment rewritten", self.beside_a_comment > 0);
        met.count("parameter converted without escapes", self.escapes > 0);
        met.count("parameter converted without folds", self.folds > 0);
        met.count("parameter converted behind an unclosed parenthesis", self.unclosed > 0);
        met.count("parameter converted, text behind it", self.behind > 0);
        met.count("field with parameters, a comment rewritten alone", self.comment_alone > 0);
    }
}

/// What stands in the comments of a header that is written.
#[derive(Default)]
struct Comments {
    rewritten: usize,
    rewritten_in_address_fields: usize,
    /// Inside another one.
    inner: usize,
    escapes: usize,
    folds: usize,
    blank_runs: usize,
    runs_of_900: usize,
    deepest: usize,
    /// Straight behind a comment of an address field.
    commas: usize,
    last_was_comment: bool,
}

impl Comments {
    fn look(&mut self, comment: &[u8], address_field: bool) {
        let mut depth = 0;
        self.rewritten += !comment.is_ascii() as usize;
        self.rewritten_in_address_fields += (!comment.is_ascii() && address_field) as usize;
        comment::parts(comment, |part| match part {
            Part::Parenthesis(b'(') => {
                depth += 1;
                self.deepest = self.deepest.max(depth);
            }
            Part::Parenthesis(_) => depth -= 1,
            Part::Run(run) => {
                self.blank_runs += (address_field && run.iter().all(|&b| b == b' ' || b == b'\t')) as usize;
                self.runs_of_900 += (address_field && run.len() == 900) as usize;
                if !run.is_ascii() {
                    self.inner += (depth > 1) as usize;
                    self.escapes += run.contains(&b'\\') as usize;
                    self.folds += run.contains(&b'\r') as usize;
                }
            }
        });
    }
}

impl Parts for Comments {
    fn phrase(&mut self, _phrase: &[u8]) {}
    fn bare(&mut self, _address: &[u8]) {
        self.last_was_comment = false;
    }
    fn angle(&mut self, _address: &[u8]) {
        self.last_was_comment = false;
    }
    fn alternative(&mut self, _address: &[u8]) {
        self.last_was_comment = false;
    }
    fn mark(&mut self, mark: u8) {
        self.commas += (mark == b',' && self.last_was_comment) as usize;
        self.last_was_comment = false;
    }
    fn comment(&mut self, comment: &[u8]) {
        self.last_was_comment = true;
        self.look(comment, true);
    }
    fn removed_members(&mut self, _members: &[u8]) {
        self.last_was_comment = false;
    }
}

/// What became of the groups in a field that fits.
#[derive(Default)]
struct Groups {
    kept: usize,
    kept_with_alternative: usize,
    removed: usize,
    removed_with_alternative: usize,
    comment_before_colon: usize,
    comment_among_members: usize,
    comment_behind: usize,
    comma_behind: usize,
    longest: usize,
    /// Since the last phrase.
    comment: bool,
    /// Since the last colon.
    alternative: bool,
    last_was_removed: bool,
}

impl Parts for Groups {
    fn phrase(&mut self, _phrase: &[u8]) {
        self.comment = false;
    }
    fn bare(&mut self, _address: &[u8]) {}
    fn angle(&mut self, _address: &[u8]) {}
    fn alternative(&mut self, _address: &[u8]) {
        self.alternative = true;
    }
    fn mark(&mut self, mark: u8) {
        self.kept += (mark == b';') as usize;
        self.kept_with_alternative += (mark == b';' && self.alternative) as usize;
        self.comma_behind += (mark == b',' && self.last_was_removed) as usize;
        self.alternative &= mark == b',';
        self.last_was_removed = false;
    }
    fn comment(&mut self, _comment: &[u8]) {
        self.comment_behind += self.last_was_removed as usize;
        self.comment = true;
    }
    fn removed_members(&mut self, members: &[u8]) {
        self.removed += 1;
        self.removed_with_alternative += has(members, b">>") as usize;
        self.comment_before_colon += self.comment as usize;
        self.comment_among_members += members.contains(&b'(') as usize;
        self.longest = self.longest.max(members.len());
        self.last_was_removed = true;
    }
}

/// The first field that is held for non-ASCII outside its comments has a comment.
fn held_beside_a_comment(header: &[u8]) -> bool {
    let mut from = 0;
    while let Some(field) = next_non_ascii(header, from) {
        let (mut outside, mut inside) = (false, false);
        comment::stretches(field.value, |stretch, is_comment| {
            outside |= !is_comment && !stretch.is_ascii();
            inside |= is_comment && !stretch.is_ascii();
        });
        if kind(field.name) == Kind::HeldOutsideComments && outside {
            return inside;
        }
        from = field.end;
    }
    false
}

fn show(label: &str, input: &Input, model: &Outcome, other: (&str, &Outcome), why: &str) -> ! {
    println!("difference at {label}, {}: {why}", other.0);
    println!("envelope ({} bytes): \"{}\"", input.envelope.len(), input.envelope.escape_ascii());
    println!("header ({} bytes): \"{}\"", input.header.len(), input.header.escape_ascii());
    println!("setting {}, rooms {} and {}", input.setting, input.envelope_room, input.header_room);
    for (name, got) in [("model", model), other] {
        println!("{name}: {:?}", got.answer);
        for (buffer, len) in [(&got.envelope, got.answer.envelope_len), (&got.header, got.answer.header_len)] {
            let end = buffer.len().min(GUARD.saturating_add(len));
            println!("  \"{}\"", buffer[GUARD..end].escape_ascii());
        }
    }
    exit(1);
}

/// One input with its rooms, made for what the model would write.
fn next_input(r: &mut Random, scratch: &mut (Vec<u8>, Vec<u8>)) -> Input {
    let setting = generate::setting(r);
    let (envelope, header) = generate::input(r, setting);
    let whole = downgrade(setting, &envelope, &header, &mut scratch.0, &mut scratch.1);
    let (envelope_room, header_room) = match whole.number {
        0 => rooms(r, whole, &header),
        _ => (r.below(100), r.below(100)),
    };
    Input { setting, envelope, header, envelope_room, header_room }
}

/// All calls on one input; what the model left.
fn compare(input: &Input, calls: &[(&str, Call)], salt: u8, label: &str) -> Outcome {
    let model = outcome(downgrade, input, salt);
    if let Some(why) = fault(input, &model, salt).or_else(|| unlike_papers(input, &model)) {
        show(label, input, &model, ("model", &model), &why);
    }
    for (name, call) in calls {
        let other = outcome(*call, input, salt);
        if let Some(why) = fault(input, &other, salt) {
            show(label, input, &model, (name, &other), &why);
        }
        if model != other {
            show(label, input, &model, (name, &other), "answers or bytes differ");
        }
    }
    model
}

/// What the papers and the RFCs say of the outgoing header, seen from it alone.
fn unlike_papers(input: &Input, got: &Outcome) -> Option<String> {
    let out = &got.header[GUARD..GUARD + got.answer.header_len];
    if out.split(|&b| b == b'\n').any(|line| line.len() > 999) {
        return Some("a line of more than 998 bytes".into());
    }
    if got.answer.number != 0 {
        return None;
    }
    let profile = Profile::Relay(Setting::new(input.setting));
    unlike_rfc5322(profile, &input.header, out).or_else(|| unlike_rfc2231(&input.header, out))
}

fn main() {
    let calls = versions::calls();
    let mut run = Run::from_arguments();
    let mut r = Random::new(run.seed);
    let mut scratch = (vec![0; 17_000], vec![0; LARGEST]);
    let mut numbers = [0; 11];
    let mut met = Met::default();
    let mut line_faults = hennelaku_model::line_faults::LineFaults::default();
    while let Some(label) = run.begin_next() {
        let input = next_input(&mut r, &mut scratch);
        let got = compare(&input, &calls, r.number() as u8, &label);
        numbers[got.answer.number as usize] += 1;
        look(&mut met, &input, &got);
        line_faults.count(&input.envelope, &input.header, got.answer);
    }
    // 9 is for batches.
    for (number, count) in numbers.iter().enumerate().filter(|(number, _)| *number != 9) {
        println!("number {number}: {count}");
    }
    print!("{met}");
    print!("{line_faults}");
    let names: Vec<&str> = calls.iter().map(|(name, _)| *name).collect();
    println!("{} inputs, 0 differences (model, {})", run.done, names.join(", "));
}
