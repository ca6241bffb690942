//! Parameters of a Content-Type or Content-Disposition as a mail program reads them, which the rewritten fields are held
//! against. Written from RFC 2231, sections 3, 4 and 4.1, and RFC 2045's token, with RFC 5322's comments and quoted strings.

use std::collections::BTreeMap;

/// A parameter that was read.
#[derive(Clone, PartialEq, Eq, Debug)]
pub struct Read {
    /// In small letters.
    pub name: String,
    /// Of an extended one.
    pub charset: Option<String>,
    pub value: Vec<u8>,
    /// How many parts it was made from.
    pub parts: usize,
}

/// One `attribute=value`, perhaps a part of a parameter.
struct Segment {
    number: Option<usize>,
    extended: bool,
    value: Vec<u8>,
}

/// The parameters of a value, its folds with it, by their names. None where one is not by the RFC: a charset without its two
/// quotes, a `%` without digits, numbers that do not run from zero, two of one name and number.
pub fn read(value: &[u8]) -> Option<Vec<Read>> {
    let unfolded: Vec<u8> = value.iter().copied().filter(|b| !b"\r\n".contains(b)).collect();
    let mut segments: BTreeMap<String, Vec<Segment>> = BTreeMap::new();
    for element in elements(&unfolded).iter().skip(1) {
        let blanks = element.iter().take_while(|b| b" \t".contains(b)).count();
        let Some((attribute, value)) = attribute_and_value(&element[blanks..]) else { continue };
        let (name, number, extended) = section(&attribute)?;
        segments.entry(name).or_default().push(Segment { number, extended, value });
    }
    segments.into_iter().map(|(name, segments)| joined(name, segments)).collect()
}

/// What stands between the `;` that are in no comment and no string, with a space for each comment.
fn elements(value: &[u8]) -> Vec<Vec<u8>> {
    let mut elements = vec![];
    let mut element = vec![];
    let mut comments = true;
    let mut rest = value;
    while let Some(&b) = rest.first() {
        let mut len = 1;
        match (b, comment_len(rest)) {
            (b'(', Some(comment)) if comments => {
                element.push(b' ');
                rest = &rest[comment..];
                continue;
            }
            (b'(', None) => comments = false,
            (b'"', _) => len = quoted_len(rest).unwrap_or(rest.len()),
            (b';', _) => {
                elements.push(std::mem::take(&mut element));
                rest = &rest[1..];
                continue;
            }
            _ => {}
        }
        element.extend_from_slice(&rest[..len]);
        rest = &rest[len..];
    }
    elements.push(element);
    elements
}

/// `"(" *([FWS] ccontent) [FWS] ")"`
fn comment_len(s: &[u8]) -> Option<usize> {
    let (mut depth, mut escaped) = (0, false);
    if s.first() != Some(&b'(') {
        return None;
    }
    for (at, &b) in s.iter().enumerate() {
        match b {
            _ if escaped => escaped = false,
            b'\\' => escaped = true,
            b'(' => depth += 1,
            b')' if depth == 1 => return Some(at + 1),
            b')' => depth -= 1,
            _ => {}
        }
    }
    None
}

/// `DQUOTE *([FWS] qcontent) [FWS] DQUOTE`
fn quoted_len(s: &[u8]) -> Option<usize> {
    let mut escaped = false;
    for (at, &b) in s.iter().enumerate().skip(1) {
        match b {
            _ if escaped => escaped = false,
            b'\\' => escaped = true,
            b'"' => return Some(at + 1),
            _ => {}
        }
    }
    None
}

/// `attribute "=" value`, and behind it a blank or nothing.
fn attribute_and_value(element: &[u8]) -> Option<(String, Vec<u8>)> {
    let equals = element.iter().position(|&b| !is_token(b)).filter(|&at| at > 0 && element[at] == b'=')?;
    let (attribute, value) = (&element[..equals], &element[equals + 1..]);
    let (len, read) = if value.first() == Some(&b'"') {
        let len = quoted_len(value)?;
        let mut read = Vec::new();
        let mut inside = value[1..len - 1].iter();
        while let Some(&b) = inside.next() {
            read.push(if b == b'\\' { *inside.next()? } else { b });
        }
        (len, read)
    } else {
        let len = value.iter().take_while(|&&b| is_token(b)).count();
        (len, value[..len].to_vec())
    };
    if len == 0 || !matches!(value.get(len), None | Some(b' ' | b'\t')) {
        return None;
    }
    Some((String::from_utf8(attribute.to_ascii_lowercase()).ok()?, read))
}

fn is_token(b: u8) -> bool {
    b.is_ascii_alphanumeric() || b"!#$%&'*+-.^_`{|}~".contains(&b)
}

/// `attribute [section] ["*"]`, a section being `*0` or `*` and a number without leading zeros.
fn section(attribute: &str) -> Option<(String, Option<usize>, bool)> {
    let (attribute, extended) = match attribute.strip_suffix('*') {
        Some(attribute) => (attribute, true),
        None => (attribute, false),
    };
    let Some((name, number)) = attribute.split_once('*') else { return Some((attribute.into(), None, extended)) };
    let plain = number == "0" || !number.starts_with('0');
    let number = number.parse().ok().filter(|_| plain && number.bytes().all(|b| b.is_ascii_digit()))?;
    Some((name.into(), Some(number), extended))
}

/// The value of all segments of one name.
fn joined(name: String, mut segments: Vec<Segment>) -> Option<Read> {
    segments.sort_by_key(|segment| segment.number);
    let numbered = segments[0].number.is_some();
    let parts = segments.len();
    let (mut charset, mut value) = (None, Vec::new());
    for (at, segment) in segments.iter().enumerate() {
        if segment.number != Some(at).filter(|_| numbered) || (at > 0 && !numbered) {
            return None;
        }
        let mut encoded = &segment.value[..];
        if at == 0 && segment.extended {
            // `[charset] "'" [language] "'"`
            let mut split = encoded.splitn(3, |&b| b == b'\'');
            charset = Some(String::from_utf8(split.next()?.to_vec()).ok()?);
            let _language = split.next()?;
            encoded = split.next()?;
        }
        if segment.extended {
            value.extend(unescaped(encoded)?);
        } else {
            value.extend_from_slice(encoded);
        }
    }
    Some(Read { name, charset, value, parts })
}

/// `*(ext-octet / attribute-char)`, an ext-octet being `%` and two uppercase digits.
fn unescaped(encoded: &[u8]) -> Option<Vec<u8>> {
    let digit = |b: u8| (b as char).to_digit(16).filter(|_| !b.is_ascii_lowercase());
    let (mut value, mut rest) = (Vec::new(), encoded);
    while let Some(&b) = rest.first() {
        match rest {
            [b'%', high, low, ..] => {
                value.push((digit(*high)? * 16 + digit(*low)?) as u8);
                rest = &rest[3..];
            }
            _ if is_token(b) && !b"*'%".contains(&b) => {
                value.push(b);
                rest = &rest[1..];
            }
            _ => return None,
        }
    }
    Some(value)
}

#[cfg(test)]
mod tests {
    use super::{read, Read};

    fn one(value: &str) -> Option<(Option<String>, String, usize)> {
        let mut read = read(value.as_bytes())?;
        assert_eq!(read.len(), 1, "{value}");
        let Read { name, charset, value, parts } = read.remove(0);
        assert!(name == "url" || name == "title" || name == "access-type" || name == "charset");
        Some((charset, String::from_utf8(value).unwrap(), parts))
    }

    #[test]
    fn examples_of_the_rfc() {
        // Section 3, without its access-type, and section 4.
        let url = "ftp://cs.utk.edu/pub/moore/bulk-mailer/bulk-mailer.tar";
        let folded =
            "message/external-body;\r\n URL*0=\"ftp://\";\r\n URL*1=\"cs.utk.edu/pub/moore/bulk-mailer/bulk-mailer.tar\"";
        assert_eq!(one(folded), Some((None, url.into(), 2)));
        let title = "application/x-stuff;\r\n title*=us-ascii'en-us'This%20is%20%2A%2A%2Afun%2A%2A%2A";
        assert_eq!(one(title), Some((Some("us-ascii".into()), "This is ***fun***".into(), 1)));
        // Section 4.1.
        let both = "application/x-stuff\r\n ;title*0*=us-ascii'en'This%20is%20even%20more%20;\r\n \
            title*1*=%2A%2A%2Afun%2A%2A%2A%20;\r\n title*2=\"isn't it!\"";
        assert_eq!(one(both), Some((Some("us-ascii".into()), "This is even more ***fun*** isn't it!".into(), 3)));
    }

    #[test]
    fn what_is_not_by_the_rfc() {
        let bad = [
            "a;title*=x", "a;title*=x'y", "a;title*='", "a;title*=''%2a", "a;title*=''%4", "a;title*=''a*",
            "a;title*1*=''a", "a;title*0*=''a;title*2*=a", "a;title*0*=''a;title*0*=a", "a;title*00*=''a",
            "a;title=a;TITLE=b",
        ];
        for value in bad {
            assert_eq!(read(value.as_bytes()), None, "{value}");
        }
        for value in
            ["a", "a;", "a;b", "a;b =c", "a;b= c", "a;=c", "a;b=", "a;b=c/d", "a(;b=c)", "a\";b=c\"", "a;\"b\"=c"]
        {
            assert_eq!(read(value.as_bytes()), Some(vec![]), "{value}");
        }
        assert_eq!(one("a; (c) charset=b (d) ; (e").map(|read| read.1), Some("b".into()));
    }
}
