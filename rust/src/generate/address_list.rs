//! Made-up address lists, and their comments.

use super::*;

/// How often a part of an address list is at fault or a gap holds a comment: once in so many, or never for 0.
pub(super) struct Faults {
    pub(super) once_in: usize,
    pub(super) comment_once_in: usize,
}

impl Faults {
    fn here(&self, r: &mut Random) -> bool {
        self.once_in > 0 && r.once_in(self.once_in)
    }
}

/// A run of a comment: blanks, escapes, quotes, and now and then about 900 bytes.
fn run(r: &mut Random, out: &mut Vec<u8>) {
    let non_ascii = r.once_in(2);
    if r.once_in(8) {
        for _ in 0..if r.once_in(20) { r.from(899, 902) } else { r.from(1, 3) } {
            out.push(r.byte(b" \t"));
        }
        return;
    }
    let end = out.len() + if r.once_in(3) { r.from(1, 3) } else { length(r, 900) };
    while out.len() < end {
        match r.below(12) {
            0 | 1 => {
                out.push(b'\\');
                match r.below(4) {
                    0 if non_ascii => character(r, out),
                    1 => out.push(r.byte(b" \t")),
                    _ => out.push(r.byte(b"()\\\"a\x01\x7f")),
                }
            }
            2 => out.push(r.byte(b"\"<>,:;@[]=?_.")),
            3 => out.push(r.byte(b"  \t")),
            4 => out.push(r.byte(b"\x01\x0b\x7f=+")),
            5 | 6 if non_ascii => character(r, out),
            _ => out.push(r.byte(ATEXT)),
        }
    }
}

/// A comment; with `faults` now and then one that is unclosed or closed too early.
pub(super) fn comment(r: &mut Random, out: &mut Vec<u8>, faults: bool) {
    let mut depth = 1;
    out.push(b'(');
    if r.once_in(100) {
        depth += r.from(1, 300);
        out.resize(out.len() + depth - 1, b'(');
    }
    while depth > 0 {
        if !r.once_in(4) && (depth < 5 || r.once_in(depth)) {
            run(r, out);
        }
        if depth < 4 && r.once_in(4) {
            out.push(b'(');
            depth += 1;
        } else if !(faults && r.once_in(20)) {
            out.push(b')');
            depth -= 1;
        } else {
            depth -= r.below(2);
        }
    }
}

/// What may stand in a gap of an address list: blanks, and now and then comments.
fn gap(r: &mut Random, out: &mut Vec<u8>, f: &Faults) {
    blanks(r, out, 0);
    while f.comment_once_in > 0 && r.once_in(f.comment_once_in) {
        comment(r, out, f.once_in > 0);
        blanks(r, out, 0);
    }
}

fn word(r: &mut Random, out: &mut Vec<u8>, non_ascii: bool) {
    let len = length(r, 900);
    if r.once_in(4) {
        quoted_string(r, out, len.max(2), non_ascii);
    } else if r.once_in(6) {
        atom(r, out, len, non_ascii);
        out.push(b'.');
    } else if r.once_in(20) {
        out.extend_from_slice(r.pick(&[".", "..", "a..b", "\"\"", "\"\\\"\"", "\"\\\\\"", ".a"]).as_bytes());
    } else {
        atom(r, out, len, non_ascii);
    }
}

fn phrase(r: &mut Random, out: &mut Vec<u8>, f: &Faults) {
    let non_ascii = r.below(3) > 0;
    word(r, out, non_ascii);
    while r.once_in(2) {
        if f.here(r) {
            out.extend_from_slice(r.pick(&["", "(c)", " (é) ", "\\", "@", ",", " ( ", "\x7f", "\"", "[x]"]).as_bytes());
        } else {
            blanks(r, out, 1);
        }
        let non_ascii = non_ascii && r.once_in(2);
        word(r, out, non_ascii);
    }
}

fn mailbox(r: &mut Random, out: &mut Vec<u8>, f: &Faults) {
    if f.here(r) {
        out.extend_from_slice(
            r.pick(&[
                "", "a", "é", "<>", "a@x <b@x>", "b:;", "<a@x >", "<a@x <b@x>>", "<é@x<b@x>>", "<é@x <é@x>>",
                "<é@x <b@x> >", "<é@x <b@x >>", "<é@x <b@x>", "<@a:b@x>", "<a@x <b@x>>", "<a@x < b@x>>", "a@x.",
                "a b@x", "<<a@x>>", "a@x b@x", "\"a@x", "<é@x b@x>", ",", ";", ":", "a@b@c", "(é)", "<(c)a@x>",
                "<a@x(c)>", "<é@x (c) <a@x>>", "a(c)@x", "a@(c)x", "é (",
            ])
            .as_bytes(),
        );
        return;
    }
    match r.below(4) {
        0 => {
            let non_ascii = r.once_in(3);
            address(r, out, 900, non_ascii);
            return;
        }
        1 => {}
        _ => {
            phrase(r, out, f);
            gap(r, out, f);
        }
    }
    out.push(b'<');
    if r.once_in(4) {
        blanks(r, out, 0);
    }
    if r.once_in(3) {
        address(r, out, 900, true);
        let least = if f.here(r) { 0 } else { 1 };
        blanks(r, out, least);
        out.push(b'<');
        if r.once_in(4) {
            blanks(r, out, 0);
        }
        address(r, out, 900, false);
        if f.here(r) {
            blanks(r, out, 0);
        }
        out.push(b'>');
    } else {
        let non_ascii = r.once_in(3);
        address(r, out, 900, non_ascii);
        if f.here(r) {
            blanks(r, out, 0);
        }
    }
    out.push(b'>');
}

/// Short mailboxes, for groups of many: one that is removed, others that are not.
const MEMBERS: &[&str] = &["é@x", "a@b", "<é@x <a@b>>", "é <a@b>", "<c@d>", "(é)a@b", "<é@x \t<\"q\"@[1]>> (c)"];

fn group(r: &mut Random, out: &mut Vec<u8>, f: &Faults) {
    phrase(r, out, f);
    gap(r, out, f);
    out.push(b':');
    gap(r, out, f);
    if f.here(r) {
        // A group inside a group.
        phrase(r, out, f);
        out.extend_from_slice(r.pick(&[":;", " : a@x ;", ":a@x,b@y;", ":é@x;", " Removed:;"]).as_bytes());
    } else if r.once_in(8) {
        // Mostly with none that is removed, or with one at a place of its own.
        let members = if r.once_in(6) { r.from(50, 400) } else { r.from(1, 12) };
        let removed = r.below(2 * members);
        for at in 0..members {
            let member = if at == removed { MEMBERS[0] } else { r.pick(&MEMBERS[1..]) };
            out.extend_from_slice(member.as_bytes());
            if at + 1 < members {
                out.extend_from_slice(r.pick(&[", ", " , ", ",\t", " ,", ", (c) "]).as_bytes());
            }
        }
        gap(r, out, f);
    } else if !r.once_in(4) {
        mailbox(r, out, f);
        while r.once_in(3) {
            gap(r, out, f);
            out.push(if f.here(r) { b';' } else { b',' });
            gap(r, out, f);
            mailbox(r, out, f);
        }
        gap(r, out, f);
    }
    if !f.here(r) {
        out.push(b';');
    }
}

pub(super) fn address_list(r: &mut Random, out: &mut Vec<u8>, f: &Faults) {
    gap(r, out, f);
    loop {
        if r.once_in(3) {
            group(r, out, f);
        } else {
            mailbox(r, out, f);
        }
        gap(r, out, f);
        if f.here(r) {
            out.extend_from_slice(r.pick(&[",,", ", ,", ";", "x", "(c)", ">", " <a@x>", ":"]).as_bytes());
        }
        if !r.once_in(2) {
            break;
        }
        out.push(b',');
        gap(r, out, f);
    }
    while out.last() == Some(&b' ') && r.once_in(2) {
        out.pop();
    }
}

const TOKENS: &[&str] = &[
    "a", "b.c", "é", "é", "\"q r\"", "\"é\\\"\"", "@", ".", "<", ">", ">>", ",", ":", ";", " ", "\t", "a@b", "é@x",
    "a@[1]", "\"q\"@x", "<a@b>", "<é@x>", "<é@x <a@b>>", " <a@b>", ", ", " : ", " ; ", "g:a@b;", "(", ")", "\"", "\\",
    "g:", "g:é@x;", "g: é@x ,", "[", "]", "(é)", "(c)", "( ", " )", "(\\)", "(\")",
];

/// Tokens of the grammar, whatever their order.
pub(super) fn tokens_in_any_order(r: &mut Random, out: &mut Vec<u8>) {
    for _ in 0..r.from(1, 9) {
        out.extend_from_slice(r.pick(TOKENS).as_bytes());
    }
}

/// How often the gaps of one list hold a comment.
pub(super) fn comments_of_a_list(r: &mut Random) -> usize {
    [0, 2, 3, 5][r.below(4)]
}

/// A list, and then one or two of its bytes changed, added or taken out, so that lines stay well-formed.
pub(super) fn changed_list(r: &mut Random, out: &mut Vec<u8>) {
    let start = out.len();
    let comment_once_in = comments_of_a_list(r);
    address_list(r, out, &Faults { once_in: 0, comment_once_in });
    for _ in 0..r.from(1, 2) {
        let places: Vec<usize> = (start..out.len()).filter(|&at| out[at] < 128).collect();
        if places.is_empty() {
            return;
        }
        // Near something of the grammar more often than inside a word.
        let mut at = places[r.below(places.len())];
        for _ in 0..6 {
            if !out[at].is_ascii_alphanumeric() {
                break;
            }
            at = places[r.below(places.len())];
        }
        let b = r.byte(b",:;<>@\"\\. \t()[]a\x7f\x01\x0b\x0c");
        match r.below(3) {
            0 => out[at] = b,
            1 => out.insert(at, b),
            _ => {
                out.remove(at);
            }
        }
    }
}
