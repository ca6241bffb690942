//! Made-up headers.

use super::*;
use crate::worst;

const NAMED: &[&str] = &[
    "From", "Sender", "Reply-To", "To", "Cc", "Bcc", "Resent-From", "Resent-Sender", "Resent-Reply-To", "Resent-To",
    "Resent-Cc", "Resent-Bcc", "Return-Path", "Disposition-Notification-To", "Subject", "Comments",
    "Content-Description", "Received", "Date", "Resent-Date", "Message-ID", "Resent-Message-ID", "In-Reply-To",
    "References", "MIME-Version", "Content-Type", "Content-ID", "Content-Disposition", "Content-Transfer-Encoding",
    "Original-Recipient", "Final-Recipient", "Keywords",
];

const ADDRESS_NAMES: usize = 14;

const TAKEN_NAMES: usize = 17;

/// Those of which request [1] rewrites the comments.
const COMMENTED: [usize; 9] = [18, 19, 20, 21, 22, 23, 24, 26, 28];

/// Those that request [12] adds to them.
const MAILBOX_COMMENTED: &[&str] = &["Content-Language", "Accept-Language", "Auto-Submitted"];

const NEAR_NAMES: &[&str] = &[
    "Fro", "Froms", "X-To", "Resent-", "Resent-Subject", "Resent-Return-Path", "Reply_To", "Subjects", "Contents",
    "Content-Typ", "Content-Language", "Downgraded-To", "Downgraded-Mail-From", "Dates", "Keyword", "CcBcc", "T",
    "Received-SPF", "Resent-Keywords", "List-Id", "X-Note",
];

/// Puts CRLF before spaces and TABs: now and then, and where the line would grow past 998 bytes.
pub(super) fn fold(r: &mut Random, value: &[u8], name: usize, often: usize) -> Vec<u8> {
    let mut out = Vec::with_capacity(value.len() + 16);
    let mut line = name;
    for (at, &b) in value.iter().enumerate() {
        if b == b' ' || b == b'\t' {
            let next = value[at + 1..].iter().position(|&b| b == b' ' || b == b'\t').unwrap_or(value.len() - at - 1);
            if line > 0 && ((often > 0 && r.once_in(often)) || line + 1 + next > 998) {
                out.extend_from_slice(b"\r\n");
                line = 0;
            }
        }
        out.push(b);
        line += 1;
    }
    out
}

fn name(r: &mut Random, out: &mut Vec<u8>, held: bool) -> bool {
    match r.below(12) {
        0 => {
            out.extend_from_slice(r.pick(NEAR_NAMES).as_bytes());
            false
        }
        1 => {
            let len = match r.below(60) {
                0 => 77,
                1..=4 => r.from(75, 76),
                // About where no character fits beside the name any more.
                5..=34 => r.from(36, 54),
                _ => r.from(1, 20),
            };
            for _ in 0..len {
                let b = r.from(33, 126) as u8;
                out.push(if b == b':' { b'x' } else { b });
            }
            false
        }
        2..=4 => {
            let at = if held { r.from(TAKEN_NAMES, NAMED.len() - 1) } else { r.from(ADDRESS_NAMES, TAKEN_NAMES - 1) };
            in_any_case(r, out, NAMED[at]);
            false
        }
        _ => {
            let at = r.below(ADDRESS_NAMES);
            in_any_case(r, out, NAMED[at]);
            true
        }
    }
}

fn field(r: &mut Random, out: &mut Vec<u8>, held: bool) {
    let start = out.len();
    let is_address = name(r, out, held);
    out.push(b':');
    let mut value = Vec::new();
    if !r.once_in(6) {
        blanks(r, &mut value, 0);
    }
    if is_address || r.once_in(8) {
        let comment_once_in = comments_of_a_list(r);
        match r.below(10) {
            0 | 1 => address_list(r, &mut value, &Faults { once_in: 8, comment_once_in }),
            2 | 3 => changed_list(r, &mut value),
            4 => tokens_in_any_order(r, &mut value),
            5 => {
                let len = r.from(1, 60);
                text(r, &mut value, len);
            }
            _ => address_list(r, &mut value, &Faults { once_in: 0, comment_once_in }),
        }
    } else {
        match r.below(40) {
            0..=7 => {
                for _ in 0..r.below(40) {
                    value.push(r.from(32, 126) as u8);
                }
            }
            8 => {
                // One line of just about 998 bytes.
                let len = r.from(995, 999).saturating_sub(out.len() - start);
                while value.len() + 4 < len {
                    if r.once_in(2) {
                        character(r, &mut value);
                    } else {
                        value.push(b'x');
                    }
                }
                value.resize(len, b'z');
                out.extend_from_slice(&value);
                out.extend_from_slice(b"\r\n");
                return;
            }
            9 | 10 => {
                let len = r.from(100, 900);
                text(r, &mut value, len);
            }
            _ => {
                let len = r.from(0, 70);
                text(r, &mut value, len);
            }
        }
    }
    end_field(r, out, start, &value);
}

/// The value, folded, after the name that begins at `start`.
pub(super) fn end_field(r: &mut Random, out: &mut Vec<u8>, start: usize, value: &[u8]) {
    let often = match r.below(6) {
        0 => 2,
        1 | 2 => 8,
        _ => 0,
    };
    let folded = fold(r, value, out.len() - start, often);
    out.extend_from_slice(&folded);
    out.extend_from_slice(b"\r\n");
}

/// A field that is held for what stands outside its comments; mostly nothing does.
fn commented_field(r: &mut Random, out: &mut Vec<u8>) {
    let start = out.len();
    let at = if r.once_in(30) { r.from(TAKEN_NAMES, NAMED.len() - 1) } else { COMMENTED[r.below(COMMENTED.len())] };
    let name = if r.once_in(8) { r.pick(MAILBOX_COMMENTED) } else { NAMED[at] };
    in_any_case(r, out, name);
    out.push(b':');
    let mut value = Vec::new();
    let faults = r.once_in(3);
    for _ in 0..r.from(1, 6) {
        match r.below(12) {
            0..=4 => comment(r, &mut value, faults),
            5 => quoted_string(r, &mut value, 8, false),
            6 if faults => value.extend_from_slice(
                r.pick(&["\"", "\\", "\\\"", "\\(", "(", ")", "\"(é)\"", "\"\\\"", "\"\\é\"", "é", "<é@x>"]).as_bytes(),
            ),
            7 => {
                let part = r.pick(&["<a", "@b>", "[", "]", "Mon, 1 Jan", "1.0", "a)", "\"(\"", "\"\\\"(\"", "\\"]);
                value.extend_from_slice(part.as_bytes());
            }
            8 | 9 => atom(r, &mut value, 4, false),
            _ => blanks(r, &mut value, 0),
        }
    }
    end_field(r, out, start, &value);
}

/// Parts of a Received field that hold nothing by themselves.
const RECEIVED: &[&str] = &[
    "from a.example", "by b", "with ESMTP", "id 12", "; Mon, 1 Jan 2024", "via x", "fo", "forr", "for;", "xfor", ";",
    "<a@b>", "\\", ")", "a:", "[(c)]", "\" for \"", "\"\\\"for <a@b> \"", "( for )",
];

/// Near misses of a clause, and what is held.
const NEAR_CLAUSES: &[&str] = &[
    "for a@b", "for <>", "for <Postmaster>", "for (c) <a@b>", "for < a@b>", "for <a@b ", "for <é@x <a@b>>", "for(",
    "a:for <é@x>", "(c)for <é@x>", ";for <é@x>", "for", "for ", "for\t", "é", "<é@x>", "\"é\"", "\"", "(",
    "( for <é@x>", "for <\"a é\"@x>", "for <é@[(]>", "for <a@[(]>", "for <é@[)>\"]>", "for <\"(é\"@x>", "for <é@x",
    "for é@x", "for <é@x.>", "for <\"a\té\"@x>", "for <a@[é]>", "for <@é:a@b>", "for;", "for\x0b<é@x>", "fór <é@x>",
    "for for <é@x>", "(é", "for<a@b>for <é@x>", "for<é@x>for <a@b>", "f for <é@x>or <a@b>", "(a (é)", "\"(é)\"",
    "\\(é)", "\\\"", "for \"é\"@x",
];

/// A for with an address, mostly a clause.
fn clause(r: &mut Random, out: &mut Vec<u8>) {
    in_any_case(r, out, "for");
    blanks(r, out, 0);
    out.push(b'<');
    let non_ascii = !r.once_in(4);
    address(r, out, 60, non_ascii);
    out.push(b'>');
}

/// A Received field; most of them have a clause with a non-ASCII address and nothing that holds them.
fn received_field(r: &mut Random, out: &mut Vec<u8>) {
    let start = out.len();
    in_any_case(r, out, "Received");
    out.push(b':');
    if r.once_in(12) {
        return received_near_998(r, out, start);
    }
    let mut value = Vec::new();
    let faults = r.once_in(4);
    for _ in 0..r.from(1, 7) {
        if !r.once_in(8) {
            blanks(r, &mut value, 1);
        }
        match r.below(12) {
            0..=3 => clause(r, &mut value),
            4 | 5 => comment(r, &mut value, faults),
            6 => quoted_string(r, &mut value, 8, false),
            7 if faults => value.extend_from_slice(r.pick(NEAR_CLAUSES).as_bytes()),
            8 => atom(r, &mut value, 4, false),
            _ => value.extend_from_slice(r.pick(RECEIVED).as_bytes()),
        }
    }
    if r.once_in(8) {
        value.extend_from_slice(r.pick(&[" ", "\t", " for", " for ", " for\t ", "for"]).as_bytes());
    }
    end_field(r, out, start, &value);
}

/// Lines that a removed clause joins, of about 998 bytes together.
fn received_near_998(r: &mut Random, out: &mut Vec<u8>, start: usize) {
    let before = r.from(9, 960);
    out.resize(start + before, b'x');
    let mut line = before;
    for _ in 0..r.below(2) {
        out.extend_from_slice(b"\r\n for <\xC3\xA9@x>y");
        line += 1;
    }
    if r.once_in(4) {
        // Another line, on which the name does not stand.
        out.extend_from_slice(b"\r\n ");
        let len = r.from(1, 900);
        out.resize(out.len() + len, b'x');
        line = 1 + len;
    }
    out.extend_from_slice(r.pick(&["\r\n for <é@x>", "\r\n\tFOR\r\n <é@x>", " \r\n  for<é@x>"]).as_bytes());
    if r.once_in(4) {
        out.extend_from_slice(r.pick(&["(é)", "\r\n ", "("]).as_bytes());
    }
    let whole = r.from(995, 1000);
    let rest = whole.saturating_sub(line).min(980);
    out.resize(out.len() + rest, b'z');
    out.extend_from_slice(b"\r\n");
}

pub fn header(r: &mut Random) -> Vec<u8> {
    let mut out = Vec::new();
    if r.once_in(100) {
        return long_header(r);
    }
    for _ in 0..r.below(6) {
        if r.once_in(4) {
            // An ASCII field of any name, a held one too.
            let name = r.pick(NAMED);
            in_any_case(r, &mut out, name);
            out.extend_from_slice(b": some <value> of, ASCII:;\r\n");
            if r.once_in(3) {
                out.extend_from_slice(b"\tand more\r\n");
            }
        }
        if r.once_in(4) {
            commented_field(r, &mut out);
            continue;
        }
        if r.once_in(6) {
            received_field(r, &mut out);
            continue;
        }
        if r.once_in(5) {
            parameter::field(r, &mut out);
            continue;
        }
        let held = r.once_in(14);
        field(r, &mut out, held);
    }
    if r.once_in(60) {
        damage_header_line(r, &mut out);
    }
    out
}

/// One more line that is malformed, or nearly so.
fn damage_header_line(r: &mut Random, out: &mut Vec<u8>) {
    let lines: &[&[u8]] = &[
        b"\r\n", b" x\r\n", b"\tx\r\n", b": x\r\n", b"A\r\n", b"A b: c\r\n", b"A: \0\r\n", b"A: \r\r\n", b"A: \n\r\n",
        b"A: x", b"A: x\r", b"A: x\n", b"A\x7f: x\r\n", b"\xC3\xA9: x\r\n", b"A: \x80\r\n", b"A: \xC3\r\n",
        b"A: \xE0\x9F\x80\r\n", b"A: \xED\xA0\x80\r\n", b"A: \xF4\x90\x80\x80\r\n", b"A: \xC1\x81\r\n",
        b"A: \xF0\x8F\x80\x80\r\n", b"A: \xF5\x80\x80\x80\r\n", b" \r\n", b"A:\r\n", b"A:\r\n \xE2\x82\r\n",
        b"~:\x01\r\n",
    ];
    let line = r.pick(lines);
    // At the start of some line.
    let mut starts = vec![0];
    starts.extend((1..=out.len()).filter(|&at| out[at - 1] == b'\n'));
    let at = starts[r.below(starts.len())];
    out.splice(at..at, line.iter().copied());
}

/// Good lines, then one that is malformed or nearly so, then perhaps no more.
pub(super) fn malformed_header(r: &mut Random) -> Vec<u8> {
    let mut out = Vec::new();
    for _ in 0..r.below(3) {
        out.extend_from_slice(r.pick(&["A: b\r\n", "Subject: é\r\n", "To: a@x,\r\n b@y\r\n"]).as_bytes());
    }
    let start = out.len();
    match r.below(4) {
        0 => {
            out.extend_from_slice(r.pick(&["X:", "X: é", " ", "\té", "Subject:"]).as_bytes());
            fill(r, &mut out, start, &["a", " ", "é", "漢", "😀", "\u{7f}"]);
        }
        1 => {
            let len = r.from(74, 78);
            out.resize(start + len, b'n');
            out.extend_from_slice(r.pick(&[":", ": é", "", " :", "n:", "é:"]).as_bytes());
            if r.once_in(3) {
                spoil(r, &mut out, start);
            }
        }
        _ => {
            let lines = ["X: a", "X:", "Subject: é", "X-Y: a漢b", " é", "\ta", "A", "", ":", " ", "To: 😀@x", "a b: c"];
            out.extend_from_slice(r.pick(&lines).as_bytes());
            spoil(r, &mut out, start);
        }
    }
    match r.below(6) {
        0 => {
            let end = r.from(start, out.len());
            out.truncate(end);
        }
        1 => {}
        2 => out.push(b'\r'),
        _ => out.extend_from_slice(b"\r\nX-Last: x\r\n"),
    }
    out
}

/// About 32,768 bytes.
fn long_header(r: &mut Random) -> Vec<u8> {
    let mut out = Vec::new();
    let size = r.from(32_766, 32_769);
    match r.below(30) {
        0..=4 => nested(r, &mut out),
        5 => return worst::most_parts(),
        6 => return worst::many_names(r.once_in(2)),
        7..=9 => {
            let size = r.from(200, 32_760);
            let mut headers = worst::headers(size);
            return headers.swap_remove(r.below(headers.len())).1;
        }
        _ => {}
    }
    while out.len() + 1100 < size {
        out.extend_from_slice(r.pick(&["Subject: ", "To: é@x,", "X-Long:\t"]).as_bytes());
        for _ in 0..r.from(1, 200) {
            if r.once_in(2) {
                character(r, &mut out);
            } else {
                out.push(b'a');
            }
        }
        out.extend_from_slice(b"\r\n");
    }
    out.extend_from_slice(b"X: ");
    let last = (out.len() + 700).min(size - 2);
    out.resize(last, b'y');
    if last < size - 2 {
        out.extend_from_slice(b"\r\n ");
        out.resize(size - 2, b'y');
    }
    out.extend_from_slice(b"\r\n");
    out
}

/// Up to 32,000 parentheses one inside the other, closed or not.
fn nested(r: &mut Random, out: &mut Vec<u8>) {
    out.extend_from_slice(r.pick(&["To: a@x", "Date:", "From: a@x,"]).as_bytes());
    let lines = r.from(1, 16);
    let last = if r.once_in(2) { lines } else { r.below(32 - lines) };
    for (parenthesis, lines) in [(b'(', lines), (b')', last)] {
        for _ in 0..lines {
            out.extend_from_slice(b"\r\n ");
            out.resize(out.len() + 950, parenthesis);
        }
        if parenthesis == b'(' {
            character(r, out);
        }
    }
    out.extend_from_slice(r.pick(&["\r\n", "\r\n b@y\r\n", ")\r\n"]).as_bytes());
}
