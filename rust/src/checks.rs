//! What the RFCs say of an outgoing header, seen from its bytes: for the fuzz tests.

use crate::call::Profile;
use crate::comment::{comment_end, non_ascii_outside, string_end};
use crate::header::{self, is_blank, kind, next_non_ascii, Kind};
use crate::rfc5322::is_address_list;
use crate::{address_list, envelope, parameter, rfc2231};

/// The fields of a well-formed header, each with its lines.
pub fn fields(header: &[u8]) -> Vec<&[u8]> {
    let is_start = |at: usize| at == 0 || (header[at - 1] == b'\n' && !is_blank(header[at]));
    let mut starts: Vec<usize> = (0..header.len()).filter(|&at| is_start(at)).collect();
    starts.push(header.len());
    starts.windows(2).map(|ends| &header[ends[0]..ends[1]]).collect()
}

/// A rewritten address field of the outgoing header that is no address list by RFC 5322, as one with a group inside a
/// group.
pub fn unlike_rfc5322(profile: Profile, header: &[u8], out: &[u8]) -> Option<String> {
    let out = fields(out);
    // For each field of the header whether it is rewritten as an address list, and how many are written for it.
    let mut written = Vec::new();
    for field in fields(header) {
        let replaces = next_non_ascii(field, 0).filter(|field| kind(field.name) == Kind::Address).map(|field| {
            let mut text = Vec::new();
            header::unfolded(field.folded_text(), |part| text.extend_from_slice(part));
            address_list::replaces(&text, profile)
        });
        let copied = matches!(replaces, Some(Some(true))) && profile != Profile::Mailbox;
        written.push((matches!(replaces, Some(Some(_))), 1 + copied as usize));
    }
    // Behind the new first fields.
    let mut at = out.len() - written.iter().map(|(_, count)| count).sum::<usize>();
    for (rewritten, count) in written {
        let value = out[at].split_at(out[at].iter().position(|&b| b == b':')? + 1).1;
        if rewritten && !is_address_list(value.strip_suffix(b"\r\n")?) {
            return Some(format!("no address list by RFC 5322: \"{}\"", out[at].escape_ascii()));
        }
        at += count;
    }
    None
}

/// A parenthesis outside strings that nothing closes.
fn is_unclosed(value: &[u8]) -> bool {
    let mut at = 0;
    while at < value.len() {
        at = match value[at] {
            b'"' => string_end(value, at),
            b'(' => match comment_end(value, at) {
                Some(end) => end,
                None => return true,
            },
            _ => at + 1,
        };
    }
    false
}

/// A rewritten field with parameters that reads by RFC 2231 as other parameters than it had. Not looked at where a parenthesis is
/// unclosed: behind it those of strings count too, which a conversion takes away, so that it may be closed in what is written.
pub fn unlike_rfc2231(header: &[u8], out: &[u8]) -> Option<String> {
    let names = |header: &[u8]| {
        let is_one = |field: &&[u8]| matches!(field.split(|&b| b == b':').next().map(kind), Some(Kind::Parameters));
        fields(header).into_iter().filter(is_one).map(<[u8]>::to_vec).collect::<Vec<_>>()
    };
    let (before, after) = (names(header), names(out));
    for (before, after) in before.iter().zip(&after).filter(|(before, _)| !before.is_ascii()) {
        let value = |field: &[u8]| {
            field[field.iter().position(|&b| b == b':').unwrap_or(0) + 1..]
                .strip_suffix(b"\r\n")
                .unwrap_or_default()
                .to_vec()
        };
        let value_before = value(before);
        if is_unclosed(&value_before) {
            continue;
        }
        let mut had: Vec<_> = parameter::parts(&value_before)
            .into_iter()
            .filter_map(|part| match part {
                parameter::Part::Parameter(found) => {
                    let name = String::from_utf8(found.name.to_ascii_lowercase()).ok()?;
                    Some((name, parameter::is_converted(&found), parameter::text(found.value)))
                }
                _ => None,
            })
            .collect();
        had.sort();
        let read = rfc2231::read(&value(after)).map(|read| {
            read.into_iter()
                .map(|one| (one.name, one.charset.as_deref() == Some("UTF-8"), one.value))
                .collect::<Vec<_>>()
        });
        if read.as_ref() != Some(&had) {
            return Some(format!("other parameters by RFC 2231: \"{}\"", after.escape_ascii()));
        }
    }
    (before.len() != after.len()).then(|| "fields with parameters".into())
}

/// What the `Downgraded-` fields of an outgoing header must read back as, in order: the text of each that was encoded, none for
/// each that came in as ASCII.
pub fn added_texts(profile: Profile, envelope: &[u8], header: &[u8]) -> Vec<Option<Vec<u8>>> {
    let mut texts = Vec::new();
    if let Profile::Relay(setting) = profile {
        let first = envelope::check(envelope, setting).map(|envelope| envelope.first_texts()).unwrap_or_default();
        texts.extend(first.into_iter().map(|(_, text)| Some(text)));
    }
    for bytes in fields(header) {
        let came_in = bytes.len() > 11 && bytes[..11].eq_ignore_ascii_case(b"Downgraded-");
        let Some(field) = next_non_ascii(bytes, 0) else {
            texts.extend(came_in.then_some(None));
            continue;
        };
        let mut text = Vec::new();
        header::unfolded(field.folded_text(), |part| text.extend_from_slice(part));
        let added = match profile.kind(field.name) {
            Kind::Other => true,
            Kind::Plain => came_in,
            Kind::Address => match address_list::replaces(&text, profile) {
                None => true,
                Some(replaces) => replaces && profile != Profile::Mailbox,
            },
            Kind::EncapsulatedOutsideComments => non_ascii_outside(field.value),
            _ => false,
        };
        texts.extend(added.then_some(Some(text)));
    }
    texts
}
