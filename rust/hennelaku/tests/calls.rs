//! The wrapper against what the header and the manual page say.

use hennelaku::*;

const ENVELOPE: &str = "MAIL FROM:<é@example.org> ALT-ADDRESS=e+2Bx@example.org\r\nRCPT TO:<b@example.net>\r\n";
const HEADER: &str = "Subject: é\r\nX-Note: ok\r\n";
const PLAIN: &str = "MAIL FROM:<a@x>\r\nRCPT TO:<b@x>\r\n";

fn refused(envelope: &str, header: &[u8]) -> Refusal {
    downgrade_to_vec(Setting::Spool, envelope.as_bytes(), header).unwrap_err()
}

fn refusal(reason: Reason, input: Input, place: usize, offset: usize) -> Refusal {
    Refusal { reason, input, place, offset }
}

#[test]
fn version_of_the_library() {
    assert_eq!(version(), VERSION);
    let dotted = format!("{}.{}.{}", VERSION / 10_000, VERSION / 100 % 100, VERSION % 100);
    assert_eq!(dotted, env!("CARGO_PKG_VERSION"));
}

#[test]
fn whole_case() {
    let message = downgrade_to_vec(Setting::Spool, ENVELOPE.as_bytes(), HEADER.as_bytes()).unwrap();
    assert_eq!(message.envelope, b"MAIL FROM:<e+x@example.org>\r\nRCPT TO:<b@example.net>\r\n");
    assert_eq!(message.header.len(), 140);
    assert!(message.header.ends_with(b"Subject: =?UTF-8?Q?=C3=A9?=\r\nX-Note: ok\r\n"));
}

#[test]
fn buffers_of_just_the_size_and_a_byte_short() {
    let call = |envelope_room: usize, header_room: usize| {
        let (mut e, mut h) = (vec![0xA5; envelope_room], vec![0xA5; header_room]);
        let answer = downgrade(Setting::Spool, ENVELOPE.as_bytes(), HEADER.as_bytes(), &mut e, &mut h);
        let untouched = e.iter().chain(&h).all(|&byte| byte == 0xA5);
        (answer, untouched)
    };
    assert_eq!(call(54, 140), (Ok(Lengths { envelope: 54, header: 140 }), false));
    assert_eq!(call(53, 140), (Err(refusal(Reason::EnvelopeRoom, Input::Envelope, 54, 0)), true));
    assert_eq!(call(54, 139), (Err(refusal(Reason::HeaderRoom, Input::Header, 140, 0)), true));
    assert_eq!(call(0, 0), (Err(refusal(Reason::EnvelopeRoom, Input::Envelope, 54, 0)), true));
}

#[test]
fn every_refusal() {
    let long = vec![b'a'; MAX_HEADER + 1];
    assert_eq!(refused(PLAIN, &long), refusal(Reason::TooLong, Input::Header, 1, 0));
    assert_eq!(refused("", b""), refusal(Reason::EnvelopeLine, Input::Envelope, 0, 0));
    assert_eq!(refused("MAIL FROM:<é@x>\r\n", b""), refusal(Reason::NoAltAddress, Input::Envelope, 0, 11));
    let beside = "MAIL FROM:<a@x> ALT-ADDRESS=b@x\r\n";
    assert_eq!(refused(beside, b""), refusal(Reason::BadAltAddress, Input::Envelope, 0, 28));
    assert_eq!(refused(PLAIN, b"X: \xff\r\n"), refusal(Reason::HeaderLine, Input::Header, 0, 3));
    assert_eq!(refused(PLAIN, "X: a\r\nKeywords: é\r\n".as_bytes()), refusal(Reason::Held, Input::Header, 1, 16));
}

#[test]
fn current_messages() {
    let current =
        |envelope: &str, header: &str| downgrade_to_vec(Setting::Current, envelope.as_bytes(), header.as_bytes());
    let at = |offset| refusal(Reason::AltAddressRetired, Input::Envelope, 0, offset);
    assert_eq!(current(ENVELOPE, ""), Err(at(39)));
    assert_eq!(current("MAIL FROM:<a@x> ALT-ADDRESS=b@x\r\n", ""), Err(at(28)));
    let header = "To: <é@x <e@x>>\r\n";
    assert_eq!(current(PLAIN, header).unwrap().header, b"Downgraded-To: =?UTF-8?Q?=3C=C3=A9=40x_=3Ce=40x=3E=3E?=\r\n");
    let spool = downgrade_to_vec(Setting::Spool, PLAIN.as_bytes(), header.as_bytes()).unwrap();
    assert!(spool.header.starts_with(b"To:\r\n <e@x>\r\n"));
}

#[test]
fn batches() {
    let note = "X: b\r\n";
    let input = [PLAIN, note].concat();
    let (envelope, end) = (PLAIN.len() as u32, input.len() as u32);
    let whole = Record::new(0..envelope, envelope..end);
    let mut records = [whole, Record::new(0..0, envelope..end), Record::new(0..envelope, end..end + 1), whole, whole];
    let (mut envelopes, mut headers) = (vec![0xA5; 200], vec![0xA5; 13]);
    downgrade_batch(Setting::Current, input.as_bytes(), &mut records, &mut envelopes, &mut headers);
    let taken = Ok(Lengths { envelope: 32, header: 6 });
    let refused = |reason, place| Err(RecordRefusal { reason, place, offset: 0 });
    assert_eq!(
        records.map(|record| record.result()),
        [taken, refused(Reason::EnvelopeLine, 0), refused(Reason::Range, 0), taken, refused(Reason::HeaderRoom, 6)]
    );
    assert_eq!(records[4].header_start, envelope);
    assert_eq!(envelopes[..64], *[PLAIN, PLAIN].concat().as_bytes());
    assert_eq!(headers, [note, note].concat().as_bytes().iter().copied().chain([0xA5]).collect::<Vec<u8>>());
    assert!(envelopes[64..].iter().all(|&byte| byte == 0xA5));
    downgrade_batch(Setting::Current, b"", &mut [], &mut [], &mut []);
}

#[test]
fn empty_header() {
    let message = downgrade_to_vec(Setting::Spool, PLAIN.as_bytes(), b"").unwrap();
    assert_eq!((message.envelope.as_slice(), message.header.len()), (PLAIN.as_bytes(), 0));
}

#[test]
fn rooms() {
    assert_eq!(header_room_for(0), 20_600);
    assert!(header_room_for(MAX_HEADER - 1) <= HEADER_ROOM_MAX);
    assert_eq!(HEADER_ROOM_MAX, 80 * MAX_HEADER + 20_600);
    assert_eq!(header_room_for(usize::MAX), HEADER_ROOM_MAX);
}

#[test]
fn replies_and_words() {
    let replies = [
        (Reason::TooLong, 552, "5.3.4"),
        (Reason::EnvelopeLine, 501, "5.5.4"),
        (Reason::NoAltAddress, 553, "5.6.7"),
        (Reason::BadAltAddress, 501, "5.5.4"),
        (Reason::HeaderLine, 554, "5.6.0"),
        (Reason::Held, 554, "5.6.9"),
        (Reason::EnvelopeRoom, 451, "4.3.1"),
        (Reason::HeaderRoom, 451, "4.3.1"),
        (Reason::Range, 451, "4.3.0"),
        (Reason::AltAddressRetired, 555, "5.5.4"),
    ];
    for (reason, code, enhanced) in replies {
        assert_eq!((reason.reply().code, reason.reply().enhanced), (code, enhanced));
        assert!(reason.reply().text.len() > 5);
    }
    assert_eq!(
        refused(PLAIN, b"X: \xff\r\n").to_string(),
        "refused by 5: a header line is malformed; line 0 and byte 3 of the header, from 0"
    );
}
