//! Made-up Content-Type and Content-Disposition fields: parameters of request [7], near their borders, and near misses.

use super::{blanks, character, comment, end_field, in_any_case, Random, CHARACTERS};
use crate::parameter::{is_attribute_char, room};

const NAMES: &[&str] = &["Content-Type", "Content-Disposition"];
const BEGINNINGS: &[&str] =
    &["", "a/b", "image/png", "attachment", " attachment", "\"q;\"", "a b", "(c)x", "(é)", "a(", "\\"];
const PARAMETERS: &[&str] = &["name", "filename", "charset", "title", "n", "m", "x!", "'%", "size", "{b}", "N", "Name"];
/// The bytes of a token; those that RFC 2231 spells with `%` more often than others.
const TOKEN: &[u8] = b"abcdefghijklmnopqrstuvwxyzABCXYZ0123456789!#$&+-.^_`{|}~*'%*'%";

/// Near misses of a parameter, and what holds a field.
const NEAR: &[&str] = &[
    "é", "é=b", "n =é", "n= é", "n(c)=é", "n=(c)é", "=é", "n==é", "n=é=", "n=é\"b\"", "n=\"é\"b", "n=\"é", "n=b/é",
    "n=é/b", "n=é,", "n=é\\", "n=é\u{1}", "n=é\u{7f}", "n/m=é", "\"n\"=é", "n=b é", "n=é b é", "n=<é>", "n=é)", "n=é(",
    "(n=é", "n*=é", "n*=UTF-8''b", "n*0=b", "*=b", "n=", "n=;n=é", "n=é n=é", "n=\"\"", "n=\"\"é", "n=\"\\\"é",
    "\"é\"", "n=é\u{b}", "n",
];

/// One byte or character of a value, and how many characters it takes.
fn value_character(r: &mut Random, out: &mut Vec<u8>, quoted: bool, wide: bool) -> usize {
    match r.below(8) {
        0..=2 if wide => {
            let start = out.len();
            if r.once_in(3) {
                out.extend_from_slice(CHARACTERS[r.below(4)].as_bytes());
            } else {
                character(r, out);
            }
            return 3 * (out.len() - start);
        }
        3 if quoted => {
            let b = r.byte(b" \t();,:<>@[]?=/\x01\x7f'*%");
            out.push(b);
            return if is_attribute_char(b) { 1 } else { 3 };
        }
        4 if quoted && r.once_in(2) => {
            out.push(b'\\');
            if wide && r.once_in(3) {
                out.extend_from_slice("é".as_bytes());
                return 6;
            }
            let b = r.byte(b"\"\\ \ta(;");
            out.push(b);
            return if is_attribute_char(b) { 1 } else { 3 };
        }
        _ => {}
    }
    let b = r.byte(TOKEN);
    out.push(b);
    if is_attribute_char(b) {
        1
    } else {
        3
    }
}

/// How many characters a value is to take: any, or just about what one line or some parts hold.
fn target(r: &mut Random, name_len: usize) -> usize {
    let parts = match r.below(40) {
        0..=15 => return r.from(1, 40),
        16..=22 => return (room(name_len, None) + 2).saturating_sub(r.below(4)).max(1),
        23..=28 => 1,
        29..=33 => r.from(2, 9),
        34..=37 => r.from(10, 11),
        38 => r.from(12, 40),
        _ => return if r.once_in(3) { hundred(r, name_len) } else { r.from(1, 400) },
    };
    let all: usize = (0..parts).map(|number| room(name_len, Some(number))).sum();
    (all + 2).saturating_sub(r.below(4)).max(1)
}

/// About 100 parts, where they are short enough to be of one header.
fn hundred(r: &mut Random, name_len: usize) -> usize {
    let all: usize = (0..r.from(99, 101)).map(|number| room(name_len, Some(number))).sum();
    (all + 2).saturating_sub(r.below(4)).max(1)
}

/// A value after its `=`. In a long one blanks stand often enough to fold it.
fn value(r: &mut Random, out: &mut Vec<u8>, name_len: usize) {
    let wide = r.below(3) > 0;
    let size = if wide { target(r, name_len) } else { r.from(1, 30) };
    let quoted = size > 300 || r.once_in(2);
    let narrow = r.once_in(3);
    if quoted {
        out.push(b'"');
    }
    let (mut have, mut line) = (0, 0);
    while have < size {
        let start = out.len();
        if line > 200 {
            out.push(b' ');
            have += 3;
            line = 0;
        } else if have + 12 > size || (narrow && !r.once_in(8)) {
            out.push(b'a');
            have += 1;
        } else {
            have += value_character(r, out, quoted, wide);
        }
        line += out.len() - start;
    }
    if wide && r.once_in(2) {
        character(r, out);
    }
    if quoted {
        out.push(b'"');
    }
}

/// A name; long ones leave little room.
fn parameter_name(r: &mut Random, out: &mut Vec<u8>) {
    match r.below(24) {
        0..=6 => {
            let len = if r.once_in(3) { r.from(1, 90) } else { r.from(50, 66) };
            let start = out.len();
            for _ in 0..len {
                out.push(r.byte(b"abcdefgXYZ019-"));
            }
            if r.once_in(3) {
                out[start..].fill(b'n');
            }
        }
        7 if r.once_in(3) => out.extend_from_slice(r.pick(&["n*", "n*0", "*", "n*0*", "name*"]).as_bytes()),
        8..=15 => {
            // Two letters, so that few are shared.
            out.push(r.byte(b"abcdefghijklmnopqrstuvwxyz"));
            out.push(r.byte(b"abcdefghijklmnopqrstuvwxyz"));
        }
        _ => {
            let name = r.pick(PARAMETERS);
            in_any_case(r, out, name);
        }
    }
}

fn gap(r: &mut Random, out: &mut Vec<u8>, faults: bool) {
    blanks(r, out, 0);
    while r.once_in(8) {
        comment(r, out, faults);
        blanks(r, out, 0);
    }
}

fn parameter(r: &mut Random, out: &mut Vec<u8>, faults: bool) {
    out.push(b';');
    gap(r, out, faults);
    if faults && r.once_in(4) {
        out.extend_from_slice(r.pick(NEAR).as_bytes());
    } else if r.once_in(30) {
        out.extend_from_slice(r.pick(&["", ";", "junk", "a b", "n=", "\"s\"", ")", "n =b"]).as_bytes());
    } else {
        let start = out.len();
        parameter_name(r, out);
        let name_len = out.len() - start;
        out.push(b'=');
        value(r, out, name_len);
    }
    if r.once_in(3) {
        gap(r, out, faults);
    }
    if r.once_in(20) {
        out.extend_from_slice(
            r.pick(&[" junk", " b=c", "  ", ";", " ;", "\t", "(", " (", " \"s\"", "x", "\""]).as_bytes(),
        );
    }
}

/// One of the two fields; most of them are not held.
pub fn field(r: &mut Random, out: &mut Vec<u8>) {
    let start = out.len();
    let name = r.pick(NAMES);
    in_any_case(r, out, name);
    out.push(b':');
    let mut value = Vec::new();
    blanks(r, &mut value, 0);
    value.extend_from_slice(r.pick(BEGINNINGS).as_bytes());
    let faults = r.once_in(4);
    if r.once_in(4) {
        gap(r, &mut value, faults);
    }
    for _ in 0..r.from(1, 4) {
        parameter(r, &mut value, faults);
    }
    if r.once_in(6) {
        value.push(b';');
        blanks(r, &mut value, 0);
    }
    end_field(r, out, start, &value);
}
