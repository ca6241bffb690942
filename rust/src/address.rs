//! Addresses and xtext. Places in a slice whose bytes from 128 on are known to make UTF-8 characters.
//! Written from document 01, Envelope lines and Address fields, and RFC 5322's atext.

const ATOM: u8 = 1;
const LITERAL: u8 = 2;
const QUOTED: u8 = 4;
const XTEXT: u8 = 8;
const VALUE: u8 = 16;
const WORD: u8 = 32;

/// What each byte may stand in.
static CLASS: [u8; 256] = {
    let mut class = [0; 256];
    let mut b = 0;
    while b < 256 {
        let c = b as u8;
        let atext = c.is_ascii_alphanumeric()
            || matches!(c, b'!' | b'#' | b'$' | b'%' | b'&' | b'\'' | b'*' | b'+' | b'-' | b'/' | b'=' | b'?' | b'^')
            || matches!(c, b'_' | b'`' | b'{' | b'|' | b'}' | b'~');
        // "Atoms are RFC 5322 atext or non-ASCII characters."
        if atext || c >= 128 {
            class[b] |= ATOM | WORD;
        }
        // "a run of atext, dots and non-ASCII characters"
        if c == b'.' {
            class[b] |= WORD;
        }
        // "`[` bytes 33 to 90 or 94 to 126, perhaps none, `]`"
        if matches!(c, 33..=90 | 94..=126) {
            class[b] |= LITERAL;
        }
        // "Quoted strings hold bytes 32 to 126 and non-ASCII characters"; the two that do not stand for themselves
        // are left out here.
        if (matches!(c, 32..=126) && c != b'"' && c != b'\\') || c >= 128 {
            class[b] |= QUOTED;
        }
        // "a value of one or more bytes 33 to 126 other than `=`"
        if matches!(c, 33..=126) && c != b'=' {
            class[b] |= VALUE;
        }
        // "xtext is bytes 33 to 126 other than `+` and `=`"
        if matches!(c, 33..=126) && c != b'+' && c != b'=' {
            class[b] |= XTEXT;
        }
        b += 1;
    }
    class
};

/// The end of the run of bytes of a class that begins at `at`.
#[inline]
fn run(s: &[u8], at: usize, class: u8) -> usize {
    let mut at = at;
    while at < s.len() && CLASS[s[at] as usize] & class != 0 {
        at += 1;
    }
    at
}

/// Atoms with one dot between each two; the end, or none where no dot-atom begins. A dot with no atom after it is
/// left outside.
fn dot_atom(s: &[u8], at: usize) -> Option<usize> {
    let mut end = run(s, at, ATOM);
    if end == at {
        return None;
    }
    while s.get(end) == Some(&b'.') {
        let next = run(s, end + 1, ATOM);
        if next == end + 1 {
            break;
        }
        end = next;
    }
    Some(end)
}

/// "Quoted strings hold bytes 32 to 126 and non-ASCII characters, perhaps none, a backslash escaping one byte 32 to
/// 126. CR, LF and TAB never stand inside."
fn quoted_string(s: &[u8], at: usize) -> Option<usize> {
    if s.get(at) != Some(&b'"') {
        return None;
    }
    let mut at = at + 1;
    loop {
        at = run(s, at, QUOTED);
        match s.get(at)? {
            b'"' => return Some(at + 1),
            b'\\' if matches!(s.get(at + 1), Some(32..=126)) => at += 2,
            _ => return None,
        }
    }
}

/// "`[` bytes 33 to 90 or 94 to 126, perhaps none, `]`"
fn domain_literal(s: &[u8], at: usize) -> Option<usize> {
    if s.get(at) != Some(&b'[') {
        return None;
    }
    let end = run(s, at + 1, LITERAL);
    if s.get(end) == Some(&b']') {
        Some(end + 1)
    } else {
        None
    }
}

/// "An address is local part, `@`, domain. The local part is a dot-atom or a quoted string, the domain a dot-atom
/// or" a literal. The end of the address that begins at `at`.
pub fn address(s: &[u8], at: usize) -> Option<usize> {
    let local = if s.get(at) == Some(&b'"') { quoted_string(s, at)? } else { dot_atom(s, at)? };
    if s.get(local) != Some(&b'@') {
        return None;
    }
    let domain = local + 1;
    if s.get(domain) == Some(&b'[') {
        domain_literal(s, domain)
    } else {
        dot_atom(s, domain)
    }
}

/// "a word is a quoted string or a run of atext, dots and non-ASCII characters"
pub fn word(s: &[u8], at: usize) -> Option<usize> {
    if s.get(at) == Some(&b'"') {
        return quoted_string(s, at);
    }
    let end = run(s, at, WORD);
    if end > at {
        Some(end)
    } else {
        None
    }
}

/// A parameter's value: "one or more bytes 33 to 126 other than `=`"; with `non_ascii` also bytes from 128 on.
pub fn value_end(s: &[u8], at: usize, non_ascii: bool) -> usize {
    let mut at = at;
    while at < s.len() && (CLASS[s[at] as usize] & VALUE != 0 || (non_ascii && s[at] >= 128)) {
        at += 1;
    }
    at
}

/// The longest line of an envelope.
pub const LINE: usize = 998;

/// "xtext is bytes 33 to 126 other than `+` and `=`, or `+` with two uppercase hex digits." The bytes that it stands
/// for, or none where it is no xtext.
pub fn decode_xtext<'a>(value: &[u8], room: &'a mut [u8; LINE]) -> Option<&'a [u8]> {
    let mut len = 0;
    let mut at = 0;
    while at < value.len() && len < LINE {
        if value[at] == b'+' {
            room[len] = hex_value(*value.get(at + 1)?)? * 16 + hex_value(*value.get(at + 2)?)?;
            at += 3;
        } else if CLASS[value[at] as usize] & XTEXT != 0 {
            room[len] = value[at];
            at += 1;
        } else {
            return None;
        }
        len += 1;
    }
    Some(&room[..len])
}

fn hex_value(digit: u8) -> Option<u8> {
    match digit {
        b'0'..=b'9' => Some(digit - b'0'),
        b'A'..=b'F' => Some(digit - b'A' + 10),
        _ => None,
    }
}

/// The whole of `s` is an address in ASCII.
pub fn is_ascii_address(s: &[u8]) -> bool {
    s.is_ascii() && address(s, 0) == Some(s.len())
}

#[cfg(test)]
mod tests {
    use super::*;

    #[test]
    fn classes_follow_atext() {
        for b in 0..=127u8 {
            let atext = b.is_ascii_alphanumeric() || b"!#$%&'*+-/=?^_`{|}~".contains(&b);
            assert_eq!(CLASS[b as usize] & ATOM != 0, atext, "{b}");
        }
    }
}
