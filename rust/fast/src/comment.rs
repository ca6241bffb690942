//! Comments in parentheses, and the fields whose comments alone are rewritten.
use crate::out::Out;
use crate::simd::is_ascii;
use crate::words::row;

/// Behind the `)` of the comment whose `(` stands at `at`.
pub fn comment_end(s: &[u8], at: usize) -> Option<usize> {
    let mut depth = 0usize;
    let mut at = at;
    while at < s.len() {
        match s[at] {
            b'(' => depth += 1,
            b')' if depth == 1 => return Some(at + 1),
            b')' => depth -= 1,
            b'\\' => at += 1,
            _ => {}
        }
        at += 1;
    }
    None
}

/// The parts of one whole comment: each parenthesis, and each run between two.
#[inline(always)]
pub fn parts(comment: &[u8], mut each: impl FnMut(&[u8])) {
    let (mut start, mut at) = (0, 0);
    while at < comment.len() {
        match comment[at] {
            b'(' | b')' => {
                if start < at {
                    each(&comment[start..at]);
                }
                each(&comment[at..at + 1]);
                start = at + 1;
            }
            b'\\' => at += 1,
            _ => {}
        }
        at += 1;
    }
}

/// The encoded words of a run without escapes and folds.
pub fn write_run(out: &mut Out, run: &[u8]) {
    if !run.iter().any(|&b| b == b'\\' || b == b'\r') {
        return row(out, run);
    }
    if run.len() <= 1024 {
        return write_made(out, run, &mut [0; 1024]);
    }
    write_made(out, run, &mut vec![0; run.len()])
}

#[inline(never)]
fn write_made(out: &mut Out, run: &[u8], text: &mut [u8]) {
    let (mut len, mut escaped) = (0, false);
    for &b in run {
        // Of a fold the blank stays, and a backslash before a fold escapes that blank.
        if b == b'\r' || b == b'\n' {
            continue;
        }
        if b == b'\\' && !escaped {
            escaped = true;
            continue;
        }
        escaped = false;
        text[len] = b;
        len += 1;
    }
    row(out, &text[..len])
}

pub fn string_end(value: &[u8], quote: usize) -> usize {
    let mut at = quote + 1;
    while at < value.len() {
        match value[at] {
            b'"' => return at + 1,
            b'\\' => at += 2,
            _ => at += 1,
        }
    }
    value.len()
}

/// The value cut into its comments and what stands between.
#[inline(always)]
pub fn stretches(value: &[u8], mut each: impl FnMut(&[u8], bool)) {
    let (mut done, mut at) = (0, 0);
    while at < value.len() {
        match value[at] {
            b'"' => at = string_end(value, at),
            b'(' => match comment_end(value, at) {
                Some(end) => {
                    each(&value[done..at], false);
                    each(&value[at..end], true);
                    (done, at) = (end, end);
                }
                None => break,
            },
            _ => at += 1,
        }
    }
    each(&value[done..], false);
}

pub fn non_ascii_outside(value: &[u8]) -> bool {
    let mut found = false;
    stretches(value, |stretch, comment| found |= !comment && !is_ascii(stretch));
    found
}

pub fn write_value(out: &mut Out, value: &[u8]) {
    stretches(value, |stretch, comment| if comment { write_comment(out, stretch) } else { out.copy(stretch) });
}

pub fn write_comment(out: &mut Out, comment: &[u8]) {
    if is_ascii(comment) {
        return out.copy(comment);
    }
    parts(comment, |part| {
        if is_ascii(part) {
            return out.copy(part);
        }
        write_run(out, part);
        out.put(b"\r\n ");
    });
}
