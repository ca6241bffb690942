//! Address lists by RFC 5322's own grammar (section 3.4), which the rewritten fields are held against.
//! Written from RFC 5322, without its obsolete forms, but for dots in phrases: document 01 lets them stand there.

/// A rewritten value, its folds with it, is an `address-list`. A member of a group is a mailbox: a group inside a group
/// is none.
pub fn is_address_list(value: &[u8]) -> bool {
    address_list(value) == Some(b"")
}

/// Each production gives what stands behind it.
type Behind<'a> = Option<&'a [u8]>;

/// `address *("," address)`
fn address_list(s: &[u8]) -> Behind<'_> {
    let mut rest = address(s)?;
    while let Some(next) = rest.strip_prefix(b",") {
        rest = address(next)?;
    }
    Some(rest)
}

/// `mailbox / group`
fn address(s: &[u8]) -> Behind<'_> {
    mailbox(s).or_else(|| group(s))
}

/// `name-addr / addr-spec`, a name-addr being `[display-name] angle-addr`.
fn mailbox(s: &[u8]) -> Behind<'_> {
    angle_addr(s).or_else(|| angle_addr(phrase(s)?)).or_else(|| addr_spec(s))
}

/// `[CFWS] "<" addr-spec ">" [CFWS]`
fn angle_addr(s: &[u8]) -> Behind<'_> {
    let inside = cfws(s)?.strip_prefix(b"<")?;
    cfws(addr_spec(inside)?.strip_prefix(b">")?)
}

/// `display-name ":" [group-list] ";" [CFWS]`, a group-list being `mailbox-list / CFWS`.
fn group(s: &[u8]) -> Behind<'_> {
    let list = phrase(s)?.strip_prefix(b":")?;
    let rest = match mailbox_list(list) {
        Some(rest) => rest,
        None => cfws(list)?,
    };
    cfws(rest.strip_prefix(b";")?)
}

/// `mailbox *("," mailbox)`
fn mailbox_list(s: &[u8]) -> Behind<'_> {
    let mut rest = mailbox(s)?;
    while let Some(next) = rest.strip_prefix(b",") {
        rest = mailbox(next)?;
    }
    Some(rest)
}

/// `1*word`, each `[CFWS] 1*atext [CFWS]` or a quoted-string; two words may not touch.
fn phrase(s: &[u8]) -> Behind<'_> {
    let mut rest = word(cfws(s)?)?;
    loop {
        let next = cfws(rest)?;
        rest = match word(next) {
            Some(behind) if next.len() < rest.len() => behind,
            Some(_) => return None,
            None => return Some(next),
        };
    }
}

fn word(s: &[u8]) -> Behind<'_> {
    quoted_string(s).or_else(|| many(s, |b| is_atext(b) || b == b'.'))
}

/// `local-part "@" domain`
fn addr_spec(s: &[u8]) -> Behind<'_> {
    let s = cfws(s)?;
    let at = cfws(quoted_string(s).or_else(|| dot_atom_text(s))?)?;
    let domain = cfws(at.strip_prefix(b"@")?)?;
    cfws(domain_literal(domain).or_else(|| dot_atom_text(domain))?)
}

/// `1*atext *("." 1*atext)`
fn dot_atom_text(s: &[u8]) -> Behind<'_> {
    let mut rest = many(s, is_atext)?;
    while let Some(next) = rest.strip_prefix(b".") {
        rest = many(next, is_atext)?;
    }
    Some(rest)
}

/// `"[" *dtext "]"`
fn domain_literal(s: &[u8]) -> Behind<'_> {
    let inside = s.strip_prefix(b"[")?;
    many(inside, |b| matches!(b, 33..=90 | 94..=126)).unwrap_or(inside).strip_prefix(b"]")
}

/// `DQUOTE *([FWS] (qtext / quoted-pair)) [FWS] DQUOTE`
fn quoted_string(s: &[u8]) -> Behind<'_> {
    let mut rest = s.strip_prefix(b"\"")?;
    loop {
        rest = match rest {
            [b'"', behind @ ..] => return Some(behind),
            [b'\\', 9 | 32..=126, behind @ ..] => behind,
            [b'\\', ..] => return None,
            [33..=126, behind @ ..] => behind,
            _ => fws(rest)?,
        };
    }
}

/// `[CFWS]`. None for a comment that has no end.
fn cfws(s: &[u8]) -> Behind<'_> {
    let mut rest = s;
    loop {
        rest = match rest {
            [b'(', ..] => comment(rest)?,
            _ => match fws(rest) {
                Some(behind) => behind,
                None => return Some(rest),
            },
        };
    }
}

/// `"(" *([FWS] ccontent) [FWS] ")"`. Control characters of a comment are copied, so that they may stand in it. Depth
/// is counted, as a comment may be thousands deep.
fn comment(s: &[u8]) -> Behind<'_> {
    let mut depth = 0;
    let mut rest = s;
    loop {
        rest = match rest {
            [b'(', behind @ ..] => {
                depth += 1;
                behind
            }
            [b')', behind @ ..] if depth == 1 => return Some(behind),
            [b')', behind @ ..] => {
                depth -= 1;
                behind
            }
            [b'\\', 1..=9 | 11..=12 | 14..=127, behind @ ..] => behind,
            [b'\\', ..] => return None,
            [b' ' | b'\t' | b'\r', ..] => fws(rest)?,
            [1..=8 | 11..=12 | 14..=127, behind @ ..] => behind,
            _ => return None,
        };
    }
}

/// `[*WSP CRLF] 1*WSP`: no line of blanks alone.
fn fws(s: &[u8]) -> Behind<'_> {
    let blank = |b| b == b' ' || b == b'\t';
    let behind = many(s, blank).unwrap_or(s);
    match behind.strip_prefix(b"\r\n") {
        Some(next) => many(next, blank).filter(|rest| !rest.starts_with(b"\r")),
        None => Some(behind).filter(|behind| behind.len() < s.len()),
    }
}

/// RFC 5322's atext.
fn is_atext(b: u8) -> bool {
    b.is_ascii_alphanumeric() || b"!#$%&'*+-/=?^_`{|}~".contains(&b)
}

/// One or more such bytes.
fn many(s: &[u8], test: impl Fn(u8) -> bool) -> Behind<'_> {
    let len = s.iter().position(|&b| !test(b)).unwrap_or(s.len());
    s.get(len..).filter(|_| len > 0)
}

#[cfg(test)]
mod tests {
    use super::is_address_list;

    #[test]
    fn lists_of_the_grammar() {
        for value in [
            "a@b",
            " a@b ",
            "\r\n a@b,\r\n c <d@e>",
            "<a@b>",
            "g:;",
            "g h : (c) ;",
            "g:a@b;,h:;",
            "\"q r\" . <\"q\"@[]>",
            "g (c) : (d) a@b (e) , \"x\" <c@d> ; (f) , e@f",
            "(c(d)\\)) a (e) @ (f) b (g)",
            "a (c) b <x@y>",
            "Internationalized\r\n Address =?UTF-8?Q?x?=\r\n Removed:;",
            "g Removed:;,\r\n a@b",
        ] {
            assert!(is_address_list(value.as_bytes()), "{value}");
        }
        for value in [
            "",
            " ",
            "a",
            "a@b,",
            ",a@b",
            "a@b c@d",
            "g:",
            "g:a@b",
            "g:a@b,;",
            "g:,;",
            ":;",
            "g:;;",
            "g:h:;;",
            "g:a@b,h:;;",
            "g : Internationalized Address =?UTF-8?Q?x?= Removed:; ;",
            "g:Removed:;,a@b;",
            "<a@b",
            "<>",
            "g <>",
            "a@b (",
            "a@b )",
            "\"a\"\"b\" <c@d>",
            "a\"b\" <c@d>",
            "a@b\r\n \r\n ,c@d",
            "a@b\r\n",
            "a@[[]",
            "é@b",
            "a..b@c",
        ] {
            assert!(!is_address_list(value.as_bytes()), "{value}");
        }
    }
}
