//! The offset of 2 and 5 by search: bytes are a beginning if some completion makes them a well-formed line, as the
//! check of lines tells. The automaton of `offset` has to say the same.
//! Written from request [8] of document 02.

use crate::envelope::line_parts;
use crate::header;
use crate::offset::{envelope_line, header_line, Reason, Stop, LINE};

/// A kind of line at a number: what the check says of one with its CRLF, and what the automaton says of any bytes.
#[derive(Clone, Copy)]
struct Kind {
    is_well_formed: fn(&[u8]) -> bool,
    stop: fn(&[u8], usize) -> Option<Stop>,
}

const MAIL: Kind =
    Kind { is_well_formed: |line| is_envelope_line(line, 0), stop: |bytes, limit| envelope_line(bytes, 0, limit) };
const RCPT: Kind =
    Kind { is_well_formed: |line| is_envelope_line(line, 100), stop: |bytes, limit| envelope_line(bytes, 100, limit) };
const FIRST: Kind = Kind {
    is_well_formed: |line| line.len() > 1 && header::check(line).is_ok() && line_ends(line) == 1,
    stop: |bytes, limit| header_line(bytes, 0, limit),
};
const LATER: Kind = Kind {
    is_well_formed: |line| header::check(&[b"A:\r\n", line].concat()).is_ok() && line_ends(line) == 1,
    stop: |bytes, limit| header_line(bytes, 1, limit),
};

fn is_envelope_line(line: &[u8], number: usize) -> bool {
    line.strip_suffix(b"\r\n").is_some_and(|line| !line.contains(&b'\r') && line_parts(line, number).is_some())
}

fn line_ends(bytes: &[u8]) -> usize {
    bytes.iter().filter(|&&b| b == b'\n').count()
}

/// Every row of the alphabet's parts with at most `depth` bytes is put behind the bytes. The length of the shortest
/// that makes a well-formed line; none where no row does. At each place the automaton is asked under every limit that
/// the rows reach.
fn search(kind: Kind, bytes: &mut Vec<u8>, alphabet: &[&[u8]], depth: usize, asked: &mut usize) -> Option<usize> {
    let len = bytes.len();
    if (kind.is_well_formed)(bytes) {
        assert_eq!((kind.stop)(bytes, len - 2), None, "{}", bytes.escape_ascii());
        return Some(0);
    }
    let mut shortest = None;
    for part in alphabet {
        // A line ends with its first CRLF.
        if part.len() <= depth && !bytes.ends_with(b"\r\n") {
            bytes.extend_from_slice(part);
            if let Some(rest) = search(kind, bytes, alphabet, depth - part.len(), asked) {
                let whole = part.len() + rest;
                shortest = Some(shortest.map_or(whole, |other: usize| other.min(whole)));
            }
            bytes.truncate(len);
        }
    }
    // The limit is on what stands before the CRLF.
    for limit in len.max(2) - 2..=(len + depth).max(2) - 2 {
        if limit > LINE || len == 0 {
            break;
        }
        let stop = (kind.stop)(bytes, limit);
        let said = stop.is_some_and(|stop| stop.at == len && stop.reason == Reason::End);
        let is_beginning = shortest.is_some_and(|shortest| len + shortest <= limit + 2);
        assert_eq!(said, is_beginning, "\"{}\" under {limit}: {stop:?}", bytes.escape_ascii());
        *asked += 1;
    }
    shortest
}

fn try_parts(kind: Kind, start: &[u8], alphabet: &[&[u8]], depth: usize) {
    let mut asked = 0;
    let shortest = search(kind, &mut start.to_vec(), alphabet, depth, &mut asked);
    // The start has to be a beginning itself, or else all of this would say little.
    assert!(shortest.is_some() && asked > 100, "{} {asked}", start.escape_ascii());
}

/// Rows of these bytes.
fn try_bytes(kind: Kind, start: &str, alphabet: &[u8], depth: usize) {
    try_parts(kind, start.as_bytes(), &alphabet.chunks(1).collect::<Vec<_>>(), depth);
}

#[test]
fn ends_of_verbs() {
    try_bytes(RCPT, "RCPT TO:", b":<a@>\r\n", 7);
    try_bytes(MAIL, "MAIL FROM", b":<>\r\na@ ", 6);
    try_bytes(MAIL, "mail fro", b"Mm:<>\r\n", 7);
}

#[test]
fn paths() {
    try_bytes(RCPT, "RCPT TO:<", b"a@.>\xC3\xA9\r\n", 7);
    try_bytes(RCPT, "RCPT TO:<\"", b"\"\\a@>\r\n", 7);
    try_bytes(RCPT, "RCPT TO:<\"", b"\"\t\xC3\xA9@a>\r\n", 6);
    try_bytes(RCPT, "RCPT TO:<a@", b"a.[]>@\xC3\xA9\r\n", 6);
    try_bytes(RCPT, "RCPT TO:<a@[", b"[]\\a> \r\n", 6);
    try_bytes(RCPT, "RCPT TO:<Postmast", b"eErs@.>\r\n", 6);
    try_bytes(MAIL, "MAIL FROM:<", b">a@.\"\r\n", 7);
    try_bytes(MAIL, "MAIL FROM:<Postmaste", b"r>@a\r\n", 7);
}

#[test]
fn parameters() {
    try_bytes(MAIL, "MAIL FROM:<>", b" a-=\t\xC3\xA9\r\n", 6);
    for value in ["", "=a alt-address", " x ALT-ADDRESS"] {
        try_bytes(MAIL, &format!("MAIL FROM:<> ALT-ADDRES{value}"), b"Ss= a-\r\n", 6);
    }
    try_bytes(MAIL, "MAIL FROM:<> ALT-ADDRESS=a Alt-Addres", b"Ss= a-\r\n", 6);
    try_bytes(MAIL, "MAIL FROM:<> ORCP", b"Tt=a\xC3\xA9 \r\n", 6);
    try_bytes(MAIL, "MAIL FROM:<> ORCPT", b"=a\xE2\x82 \r\n", 7);
    try_bytes(MAIL, "MAIL FROM:<> ORCPT=é ORCPT", b"X=a\xC3\xA9 \r\n", 6);
}

#[test]
fn header_lines() {
    for kind in [FIRST, LATER] {
        try_bytes(kind, "", b"a: \t\0\x7F\xC3\xA9\r\n", 6);
        try_bytes(kind, &"n".repeat(74), b"n: \r\n", 7);
    }
}

#[test]
fn characters() {
    // All first bytes with bytes about the borders of what may follow, and all pairs of first bytes.
    for first in 0x80..=0xFF {
        let mut asked = 0;
        let borders: Vec<&[u8]> = vec![b"\x7F", b"\x80", b"\x8F", b"\x90", b"\x9F", b"\xA0", b"\xBF", b"\r\n"];
        search(LATER, &mut vec![b' ', first], &borders, 5, &mut asked);
        let few: Vec<&[u8]> = vec![b"\x80", b"\r\n"];
        for second in 0..=0xFF {
            search(LATER, &mut vec![b' ', first, second], &few, 4, &mut asked);
        }
        for start in ["RCPT TO:<", "RCPT TO:<\"", "RCPT TO:<a@", "RCPT TO:<a@a> ORCPT="] {
            let parts: Vec<&[u8]> = vec![b"\x80", b"\xA0", b"@a>\r\n", b"\"@a>\r\n", b">\r\n", b"\r\n"];
            search(RCPT, &mut [start.as_bytes(), &[first]].concat(), &parts, 9, &mut asked);
        }
    }
}

/// These ends, each with what can be left of a character before it.
fn behind_characters(ends: &[&str]) -> Vec<Vec<u8>> {
    let rests: [&[u8]; 7] = [b"", b"\x80", b"\xA0", b"\x80\x80", b"\xA0\x80", b"\x80\x80\x80", b"\xA0\x80\x80"];
    rests.iter().flat_map(|rest| ends.iter().map(move |end| [rest, end.as_bytes()].concat())).collect()
}

/// Each of the 256 bytes behind each of these starts, and then what can end a line.
#[test]
fn every_byte_at_every_place() {
    let ends = ["\r\n", "a\r\n", ">\r\n", "a>\r\n", "]>\r\n", "@a>\r\n", "a@a>\r\n", "\"@a>\r\n", "a\"@a>\r\n"];
    let path = behind_characters(&ends);
    let path: Vec<&[u8]> = path.iter().map(|part| &part[..]).collect();
    for start in [
        "<", "<a", "<a.", "<\"", "<\"\\", "<\"\"", "<a@", "<a@a", "<a@a.", "<a@[", "<a@[]", "<a@a>", "<a@a> ",
        "<a@a> a", "<a@a> a=", "<a@a> a=a", "<a@a> ORCPT", "<a@a> orcpt=", "<a@a> ORCPT=a", "<a@a> ORCPTA=a",
        "<a@a> AORCPT=a", "<a@a> ALT-ADDRESS", "<a@a> ALT-ADDRESS=", "<a@a> alt-address=a",
        "<a@a> ALT-ADDRESS=a ALT-ADDRESS", "<a@a> ALT-ADDRESSA=a ALT-ADDRESS", "<Postmaster", "<postmaste",
        "<Postmasters", "<Post.master", "<Postéaster", "<Postmasteré",
    ] {
        for b in (0..=255).filter(|&b| b != b'\r') {
            for (kind, verb) in [(MAIL, "MAIL FROM:"), (RCPT, "RCPT TO:")] {
                let mut asked = 0;
                search(kind, &mut [verb.as_bytes(), start.as_bytes(), &[b]].concat(), &path, 9, &mut asked);
            }
        }
    }
    let text = behind_characters(&["\r\n", ":\r\n", "a:\r\n"]);
    let text: Vec<&[u8]> = text.iter().map(|part| &part[..]).collect();
    for start in ["", "a", ":", "a:", " ", "a: a"] {
        for b in (0..=255).filter(|&b| b != b'\r') {
            for kind in [FIRST, LATER] {
                search(kind, &mut [start.as_bytes(), &[b]].concat(), &text, 6, &mut 0);
            }
        }
    }
    // What follows a CR.
    for b in 0..=255 {
        for (kind, start) in [(MAIL, "MAIL FROM:<"), (MAIL, "MAIL FROM:<>"), (FIRST, ""), (FIRST, "a"), (LATER, "a:")] {
            for bytes in [vec![b'\r'], vec![b'\r', b]] {
                search(kind, &mut [start.as_bytes(), &bytes].concat(), &[b"\n"], 1, &mut 0);
            }
        }
    }
    // The verbs themselves, in any case.
    for (kind, verb) in [(MAIL, "MAIL FROM:<"), (RCPT, "RCPT TO:<")] {
        for at in 0..verb.len() {
            for b in 0..=255 {
                let rest = &verb.as_bytes()[at + 1..];
                let mut bytes = [&verb.to_lowercase().as_bytes()[..at], &[b]].concat();
                search(kind, &mut bytes, &[&[rest, b"a@a>\r\n"].concat(), &[rest, b">\r\n"].concat()], 20, &mut 0);
            }
        }
    }
}

/// A line begun so, made this long by a row of `a`.
fn filled(start: &str, len: usize) -> Vec<u8> {
    let mut line = start.as_bytes().to_vec();
    line.resize(len, b'a');
    line
}

#[test]
fn the_real_limit_looks_ahead() {
    let path: Vec<&[u8]> = vec![b"a", b".", b"@", b">", b"\xC3", b"\xA9", b"\r\n"];
    try_parts(RCPT, &filled("RCPT TO:<", 994), &path, 6);
    try_parts(MAIL, &filled("MAIL FROM:<a@", 995), &path, 6);
    let quoted: Vec<&[u8]> = vec![b"a", b"\"", b"\\", b"@", b">", b"\r\n"];
    try_parts(RCPT, &filled("RCPT TO:<\"", 993), &quoted, 7);
    let literal: Vec<&[u8]> = vec![b"a", b"]", b">", b"[", b" ", b"\r\n"];
    try_parts(RCPT, &filled("RCPT TO:<a@[", 995), &literal, 6);
    let parameters: Vec<&[u8]> = vec![b"a", b" ", b"=", b"-", b"\r\n"];
    for start in ["MAIL FROM:<> X=", "MAIL FROM:<> X", "MAIL FROM:<a@x> ALT-ADDRESS=a@x X="] {
        try_parts(MAIL, &filled(start, 995), &parameters, 6);
    }
    for start in ["MAIL FROM:<> X=", "MAIL FROM:<> ALT-ADDRESS=a X="] {
        let line = [&filled(start, 983)[..], b" ALT-ADDRES"].concat();
        try_parts(MAIL, &line, &[b"S", b"X", b" ", b"=", b"\r\n"], 6);
    }
    let characters: Vec<&[u8]> = vec![b"a", b"\xC3", b"\xF0", b"\x90", b"\x80", b"\r\n"];
    try_parts(MAIL, &filled("MAIL FROM:<> ORCPT=", 994), &characters, 6);
    for kind in [FIRST, LATER] {
        try_parts(kind, &filled("X:", 994), &characters, 6);
    }
    try_parts(LATER, &filled(" ", 994), &characters, 6);
}
