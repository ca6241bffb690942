//! The reader of Downgraded fields against what the header says.

use hennelaku::*;

#[test]
fn what_the_calls_added_reads_back() {
    let envelope = "MAIL FROM:<é@example.org> ALT-ADDRESS=e+2Bx@example.org\r\nRCPT TO:<b@example.net>\r\n";
    let header = "To: é <é@x>\r\nX-Note: α\r\n β\r\nSubject: é\r\n";
    let message = downgrade_to_vec(Setting::Spool, envelope.as_bytes(), header.as_bytes()).unwrap();
    let texts: Vec<String> =
        read_downgraded(&message.header).map(|field| String::from_utf8(field.text.unwrap()).unwrap()).collect();
    assert_eq!(texts, ["<é@example.org <e+x@example.org>>", "é <é@x>", "α β"]);
}

#[test]
fn every_refusal() {
    let header =
        b"Downgraded-A\r\nDowngraded-B: =??=\r\nDowngraded-C: =?X?Q?a?=\r\nDowngraded-D: =?UTF-8?Q?=FF?=\r\nX: y\r\n";
    let refusals: Vec<_> = read_downgraded(header).map(|field| field.text.unwrap_err()).collect();
    assert_eq!(refusals, [ReadRefusal::Field, ReadRefusal::Word, ReadRefusal::Charset, ReadRefusal::Utf8]);
    assert_eq!(read_downgraded(header).next().unwrap().lines, b"Downgraded-A\r\n");
    let mut buffer = [0xA5; 1];
    let field = b"X: y\r\ndowngraded-e: =?utf-8?b?w6k=?=\r\n";
    assert_eq!(read_downgraded_at(field, 0, &mut buffer), Some((6..38, Err(ReadRefusal::Room(2)))));
    assert_eq!(buffer, [0xA5]);
    for refusal in refusals.into_iter().chain([ReadRefusal::Room(2)]) {
        assert!(refusal.to_string().len() > 10);
    }
}

#[test]
fn places() {
    let header = b"Downgraded-A: a\r\nDowngraded-B: b\r\n";
    let mut buffer = [0; 34];
    assert_eq!(read_downgraded_at(header, 0, &mut buffer), Some((0..17, Ok(1))));
    assert_eq!(read_downgraded_at(header, 1, &mut buffer), Some((17..34, Ok(1))));
    assert_eq!(buffer[0], b'b');
    assert_eq!(read_downgraded_at(header, 18, &mut buffer), None);
    assert_eq!(read_downgraded_at(header, usize::MAX, &mut buffer), None);
    assert_eq!(read_downgraded(b"").next(), None);
}
