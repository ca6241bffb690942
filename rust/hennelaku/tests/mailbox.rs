//! The mailbox's call against what the header says.

use hennelaku::*;

fn refused(header: &str, room: usize) -> Refusal {
    let mut buffer = vec![0xA5; room];
    let refusal = downgrade_mailbox(header.as_bytes(), &mut buffer).unwrap_err();
    assert!(buffer.iter().all(|&byte| byte == 0xA5));
    assert_eq!(refusal.input, Input::Header);
    refusal
}

#[test]
fn a_stored_header() {
    let header = "From: Ås <é@x>\r\nTo: a@b\r\nSubject: é\r\nMessage-ID: é\r\nX-Area: é\r\n";
    let out = downgrade_mailbox_to_vec(header.as_bytes()).unwrap();
    let lines = [
        "From:",
        " =?UTF-8?Q?=C3=85s?=",
        " =?UTF-8?Q?=C3=A9=40x?=",
        " :;",
        "To: a@b",
        "Subject: =?UTF-8?Q?=C3=A9?=",
        "Downgraded-Message-ID: =?UTF-8?Q?=C3=A9?=",
        "X-Area: =?UTF-8?Q?=C3=A9?=",
        "",
    ];
    assert_eq!(String::from_utf8(out).unwrap(), lines.join("\r\n"));
}

#[test]
fn a_buffer_of_just_the_size_and_a_byte_short() {
    let header = "Subject: é\r\n";
    let mut buffer = [0xA5; 30];
    assert_eq!(downgrade_mailbox(header.as_bytes(), &mut buffer), Ok(29));
    assert_eq!(&buffer, b"Subject: =?UTF-8?Q?=C3=A9?=\r\n\xA5");
    let refusal = refused(header, 28);
    assert_eq!((refusal.reason, refusal.place, refusal.offset), (Reason::HeaderRoom, 29, 0));
}

#[test]
fn every_refusal() {
    let told = |header: &str| {
        let refusal = refused(header, 100);
        (refusal.reason, refusal.place, refusal.offset)
    };
    assert_eq!(told(&"a".repeat(MAX_HEADER + 1)), (Reason::TooLong, 1, 0));
    assert_eq!(told("X: a\r\n\r\n"), (Reason::HeaderLine, 1, 6));
    assert_eq!(told("X: a\r\nKeywords: é\r\n"), (Reason::Held, 1, 16));
}

#[test]
fn empty_header() {
    assert_eq!(downgrade_mailbox(b"", &mut []), Ok(0));
    assert_eq!(downgrade_mailbox_to_vec(b""), Ok(vec![]));
}
