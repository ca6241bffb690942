//! Headers that ask the most of a call: for tests of its growth and of its time.

/// "header over 32,768" is refused.
const HEADER: usize = 32_768;

/// A field whose value begins with `before`, goes on with `unit` over and over, folded where a line is full, and ends with `after`.
fn filled(size: usize, before: &str, unit: &str, after: &str) -> Vec<u8> {
    let mut out = before.as_bytes().to_vec();
    let mut line = out.len();
    while out.len() + unit.len() + after.len() + 8 < size {
        if line + unit.len() + after.len() > 990 {
            out.extend_from_slice(b"\r\n ");
            line = 1;
        }
        out.extend_from_slice(unit.as_bytes());
        line += unit.len();
    }
    out.extend_from_slice(after.as_bytes());
    out.extend_from_slice(b"\r\n");
    out
}

/// One parameter whose value makes the longest output: a name of 62 bytes, so that from part 1,000 on a part holds one byte.
/// Part 0 has room for the `a`, part 1 for the `é`.
pub fn most_parts() -> Vec<u8> {
    let mut out = format!("Content-Type:;{}=\"a\u{e9}", "n".repeat(62)).into_bytes();
    let mut line = out.len();
    while out.len() < HEADER - 3 {
        if line == 998 {
            out.extend_from_slice(b"\r\n ");
            line = 1;
        } else {
            out.push(b'(');
            line += 1;
        }
    }
    out.extend_from_slice(b"\"\r\n");
    out
}

/// As many parameters as go into a header, each with a name of three letters and none shared, or the first and the last.
pub fn many_names(shared: bool) -> Vec<u8> {
    names_behind("", shared)
}

/// The same with names that all begin alike.
fn names_behind(prefix: &str, shared: bool) -> Vec<u8> {
    let letters = b"abcdefghijklmnopqrstuvwxyz";
    let name = |n: usize| [letters[n / 676 % 26], letters[n / 26 % 26], letters[n % 26]];
    let mut out = b"Content-Type:".to_vec();
    let (mut line, mut count) = (out.len(), 0);
    while out.len() + prefix.len() + 20 < HEADER {
        if line + prefix.len() + 8 > 998 {
            out.extend_from_slice(b"\r\n ");
            line = 1;
        }
        out.push(b';');
        out.extend_from_slice(prefix.as_bytes());
        out.extend_from_slice(&name(count));
        out.extend_from_slice(b"=x");
        line += prefix.len() + 6;
        count += 1;
    }
    out.push(b';');
    out.extend_from_slice(prefix.as_bytes());
    out.extend_from_slice(&name(if shared { 0 } else { count }));
    out.extend_from_slice("=\u{e9}\r\n".as_bytes());
    out
}

/// Parentheses one inside the other, as many as go into a value; an unclosed one has a last `)` less.
fn nested(size: usize, name: &str, closed: bool, after: &str) -> Vec<u8> {
    let mut out = format!("{name}: (\u{e9}) ").into_bytes();
    let lines = (size - 50) / 950;
    let half = (size - 50 - 3 * lines) / 2;
    let parentheses = [vec![b'('; half], vec![b')'; half - !closed as usize]].concat();
    for line in parentheses.chunks(950) {
        out.extend_from_slice(b"\r\n ");
        out.extend_from_slice(line);
    }
    out.extend_from_slice(after.as_bytes());
    out.extend_from_slice(b"\r\n");
    out
}

/// Small fields, as many as go into a header.
fn fields(size: usize, field: &str) -> Vec<u8> {
    field.repeat(size / field.len()).into_bytes()
}

/// Each with what it is, for headers of about `size` bytes. Not all of them are answered 0.
pub fn headers(size: usize) -> Vec<(&'static str, Vec<u8>)> {
    let filled = |before, unit, after| filled(size, before, unit, after);
    vec![
        ("small plain text fields", fields(size, "Subject:\u{e9}\r\n")),
        ("small encapsulated fields", fields(size, "X:\u{e9}\r\n")),
        ("small address fields", fields(size, "To:\u{e9}@x\r\n")),
        ("small Received fields", fields(size, "Received:(\u{e9})\r\n")),
        ("small parameter fields", fields(size, "Content-Type:;a=\u{e9}\r\n")),
        ("mailboxes removed", filled("To:a@b", ",\u{e9}@x", "")),
        ("members of one group", filled("To:g:a@b", ",b@c", ",\u{e9}@x;")),
        ("members of one group, none removed", filled("To:\u{e9}:a@b", ",b@c", ";")),
        ("small groups", filled("To:\u{e9}:;", ",g:a@b;", "")),
        ("alternatives", filled("To:a@b", ",<\u{e9}@x <a@b>>", "")),
        ("words of a phrase", filled("To:\u{e9}", " a", "<a@b>")),
        ("escapes in a phrase", filled("To:", "\"\\a\\b\\c\" ", "\u{e9} <a@b>")),
        ("phrase that nothing follows", filled("To:\u{e9}", " a", "")),
        ("small comments of an address", filled("To:a@b", "(\u{e9})", "")),
        ("small comments of a date", filled("Date:", "(\u{e9})", "")),
        ("blanks in a comment", filled("Date:(", " \\ ", "\u{e9})")),
        ("strings of a date", filled("Date:(\u{e9})", "\"\\\"\"", "")),
        ("clauses that go", filled("Received:", " for <\u{e9}@x>", "")),
        ("clauses that stay", filled("Received:(\u{e9})", " for <a@x>", "")),
        ("words that are nearly for", filled("Received:(\u{e9})", " fo for;", "")),
        ("comments of a Received", filled("Received:", "(\u{e9})f", "")),
        ("small parameters", filled("Content-Type:", ";a=\u{e9}", "")),
        ("semicolons", filled("Content-Type:(\u{e9})", "; ", "")),
        ("comments behind a semicolon", filled("Content-Type:(\u{e9});", "()", "a=b")),
        ("parameters and comments", filled("Content-Type:(\u{e9})", ";a=b()", "")),
        ("nearly parameters", filled("Content-Type:(\u{e9})", ";a=b/", "")),
        ("parentheses, To", nested(size, "To", true, "\r\n a@b")),
        ("parentheses, To, unclosed", nested(size, "To", false, "\r\n a@b")),
        ("parentheses, Date", nested(size, "Date", true, "")),
        ("parentheses, Date, unclosed", nested(size, "Date", false, "")),
        ("parentheses, Received", nested(size, "Received", true, "")),
        ("parentheses, Received, unclosed", nested(size, "Received", false, "")),
        ("parentheses, Content-Type", nested(size, "Content-Type", true, "")),
        ("parentheses, Content-Type, unclosed", nested(size, "Content-Type", false, "")),
        ("open parentheses only, Received", filled("Received:(\u{e9})", "( ", "")),
        ("open parentheses only, Content-Type", filled("Content-Type:(\u{e9})", ";a=b( ", "")),
        ("runs of one byte", filled("Date:(\u{e9}", "(a)", ")")),
    ]
}

/// Of 32,768 bytes: those whose size is what they are about.
pub fn largest() -> Vec<(&'static str, Vec<u8>)> {
    vec![
        ("parameter in the most parts", most_parts()),
        ("4,700 names of three letters", many_names(false)),
        ("4,700 names of three letters, one shared", many_names(true)),
        ("4,000 names that begin alike", names_behind("a", false)),
        ("2,700 names that begin alike", names_behind("aaaaa", false)),
    ]
}

#[cfg(test)]
mod tests {
    #[test]
    fn headers_are_well_formed_and_of_their_size() {
        for size in [1024, 32_700] {
            for (label, header) in super::headers(size) {
                assert!(header.len() <= size && 10 * header.len() > 9 * size, "{label} {}", header.len());
                assert_eq!(crate::header::check(&header), Ok(()), "{label}");
            }
        }
        for (label, header) in super::largest() {
            assert!(header.len() <= super::HEADER && header.len() > super::HEADER - 100, "{label} {}", header.len());
            assert_eq!(crate::header::check(&header), Ok(()), "{label}");
        }
    }
}
