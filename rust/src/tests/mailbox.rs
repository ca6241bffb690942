//! Request [12]: the mailbox profile; a test of a settled reading tells its number.

use crate::rfc5322::is_address_list;
use crate::tests::{numbers, out as relay, read_row};
use crate::{downgrade_mailbox, MailboxAnswer};

fn answer(header: &[u8], room: usize) -> (MailboxAnswer, Vec<u8>) {
    let mut buffer = vec![0xEE; room];
    let answer = downgrade_mailbox(header, &mut buffer);
    assert!(buffer[answer.length..].iter().all(|&b| b == 0xEE));
    buffer.truncate(answer.length);
    (answer, buffer)
}

/// The outgoing header.
fn out(header: &str) -> String {
    let (answer, buffer) = answer(header.as_bytes(), 80 * header.len());
    assert_eq!((answer.number, answer.place, answer.offset), (0, 0, 0), "{header:?}");
    assert!(buffer.is_ascii());
    String::from_utf8(buffer).unwrap()
}

fn refused(header: &str, place: usize, offset: usize) {
    let (answer, _) = answer(header.as_bytes(), 100_000);
    assert_eq!((answer.number, answer.place, answer.offset), (6, place, offset), "{header:?}");
}

/// The pieces of an address field that fits; it is the whole outgoing header.
fn pieces(text: &str) -> Vec<String> {
    let got = out(&format!("To: {text}\r\n"));
    let value = got.strip_prefix("To:").unwrap_or_else(|| panic!("{text:?} gave {got:?}"));
    let value = value.strip_suffix("\r\n").unwrap();
    assert!(is_address_list(value.as_bytes()), "{value:?}");
    value.split("\r\n ").skip(1).map(str::to_string).collect()
}

fn unfit(text: &str) {
    let got = out(&format!("To: {text}\r\n"));
    assert!(got.starts_with("Downgraded-To: =?UTF-8?"), "{text:?} gave {got:?}");
    // What does not fit, fits nowhere: one field goes in its place.
    assert_eq!(got.matches("\r\nTo:").count() + got.matches("\r\nDowngraded-").count(), 0);
}

const E: &str = "=?UTF-8?Q?=C3=A9?=";

#[test]
fn sizes_and_order() {
    let long = |len: usize| {
        let mut header = Vec::new();
        while header.len() + 100 < len {
            header.extend_from_slice(b"X: y\r\n");
        }
        header.extend_from_slice(b"X:");
        header.resize(len - 2, b'z');
        header.extend_from_slice(b"\r\n");
        header
    };
    assert_eq!(answer(&long(32_768), 40_000).0, MailboxAnswer { number: 0, place: 0, offset: 0, length: 32_768 });
    assert_eq!(answer(&long(32_769), 40_000).0, MailboxAnswer { number: 1, place: 1, offset: 0, length: 0 });
    let refusal = |header: &[u8], room| {
        let (answer, _) = answer(header, room);
        (answer.number, answer.place, answer.offset, answer.length)
    };
    // 1, then 5, then 6, then 8.
    assert_eq!(refusal(&[&long(32_769)[..], b"\r\n"].concat(), 0), (1, 1, 0, 0));
    assert_eq!(refusal("Keywords: é\r\nSubject: é\r\n\r\n".as_bytes(), 0), (5, 2, 27, 0));
    assert_eq!(refusal("Subject: é\r\nX: a\r\n b\r\nKeywords:\r\n é\r\n".as_bytes(), 0), (6, 3, 35, 0));
    assert_eq!(refusal("Subject: é\r\n".as_bytes(), 28), (8, 29, 0, 0));
    assert_eq!(refusal("Subject: é\r\n".as_bytes(), 29), (0, 0, 0, 29));
    assert_eq!(refusal(b"X: \xff\r\n", 0), (5, 0, 3, 0));
    assert_eq!(refusal(b"", 0), (0, 0, 0, 0));
    assert_eq!(refusal(b" x\r\n", 0), (5, 0, 0, 0));
}

#[test]
fn every_name() {
    let cases = |name: &str| [name.to_string(), name.to_lowercase(), name.to_uppercase()];
    let addresses = [
        "From", "Sender", "Reply-To", "To", "Cc", "Bcc", "Resent-From", "Resent-Sender", "Resent-Reply-To",
        "Resent-To", "Resent-Cc", "Resent-Bcc", "Return-Path", "Disposition-Notification-To",
    ];
    for name in addresses.iter().flat_map(|name| cases(name)) {
        assert_eq!(out(&format!("{name}: <é@x>\r\n")), format!("{name}:\r\n =?UTF-8?Q?=C3=A9=40x?=\r\n :;\r\n"));
        assert_eq!(out(&format!("{name}: é\r\n")), format!("Downgraded-{name}: {E}\r\n"));
        assert_eq!(out(&format!("{name}: é <a@x>\r\n")), relay(&format!("{name}: é <a@x>\r\n")));
    }
    for name in ["Subject", "Comments", "Content-Description"].iter().flat_map(|name| cases(name)) {
        assert_eq!(out(&format!("{name}: é (é)\r\n")), relay(&format!("{name}: é (é)\r\n")));
    }
    for name in ["Message-ID", "Resent-Message-ID", "In-Reply-To", "References"].iter().flat_map(|name| cases(name)) {
        assert_eq!(out(&format!("{name}: <a@b> (é)\r\n")), format!("{name}: <a@b> (\r\n {E}\r\n )\r\n"));
        assert_eq!(out(&format!("{name}: é\r\n")), format!("Downgraded-{name}: {E}\r\n"));
        // [12.7]: the whole text, comments with it as they stand.
        assert_eq!(out(&format!("{name}: é(é)\r\n")), format!("Downgraded-{name}: =?UTF-8?Q?=C3=A9=28=C3=A9=29?=\r\n"));
        for text in ["\"é", "\"(é)\"", "(a (é)", "(é) é"] {
            assert!(out(&format!("{name}: {text}\r\n")).starts_with(&format!("Downgraded-{name}: =?")), "{text}");
        }
    }
    let dates = [
        "Date", "Resent-Date", "MIME-Version", "Content-ID", "Content-Transfer-Encoding", "Content-Language",
        "Accept-Language", "Auto-Submitted", "Received", "Content-Type", "Content-Disposition",
    ];
    for name in dates.iter().flat_map(|name| cases(name)) {
        assert_eq!(out(&format!("{name}: a (é)\r\n")), format!("{name}: a (\r\n {E}\r\n )\r\n"));
        refused(&format!("X: y\r\n{name}: a é\r\n"), 1, 6 + name.len() + 4);
        refused(&format!("{name}: (a (é)\r\n"), 0, name.len() + 6);
    }
    for name in ["Original-Recipient", "Final-Recipient", "Keywords"].iter().flat_map(|name| cases(name)) {
        refused(&format!("{name}: a (é)\r\n"), 0, name.len() + 5);
    }
    // [12.8], [12.10]: "under its own name, with [5]'s first line"; a Downgraded- field that came in is another name.
    for name in
        ["X", "Downgraded-To", "Downgraded-Message-ID", "List-Id", "Subjec", "Content-Languages", "Dates", "Tos"]
    {
        assert_eq!(out(&format!("{name}:  (é)\r\n")), format!("{name}: =?UTF-8?Q?=28=C3=A9=29?=\r\n"));
    }
    let name = "n".repeat(76);
    assert_eq!(out(&format!("{name}: é\r\n")), format!("{name}:\r\n {E}\r\n"));
    let name = "n".repeat(58);
    assert_eq!(out(&format!("{name}: é\r\n")), format!("{name}: =?UTF-8?B?w6k=?=\r\n"));
}

#[test]
fn mailboxes() {
    // [12.1]: the row is of the address without `< >`, its quoting kept.
    assert_eq!(pieces("é@x"), ["=?UTF-8?Q?=C3=A9=40x?=", ":;"]);
    assert_eq!(pieces("<é@x>"), ["=?UTF-8?Q?=C3=A9=40x?=", ":;"]);
    assert_eq!(pieces("< \"é \"@x>"), ["=?UTF-8?Q?=22=C3=A9_=22=40x?=", ":;"]);
    // [12.12]: a domain in UTF-8 encodes the whole address.
    assert_eq!(pieces("a@é.x"), ["=?UTF-8?Q?a=40=C3=A9=2Ex?=", ":;"]);
    // [12.2]: `:;` is a piece on a line of its own, and a comma joins it.
    assert_eq!(pieces("é@x, b@y"), ["=?UTF-8?Q?=C3=A9=40x?=", ":;,", "b@y"]);
    assert_eq!(pieces("b@y,é@x,é@x"), ["b@y,", "=?UTF-8?Q?=C3=A9=40x?=", ":;,", "=?UTF-8?Q?=C3=A9=40x?=", ":;"]);
    // [12.3]: two rows, one straight after the other.
    assert_eq!(pieces("é <é@x>"), [E, "=?UTF-8?Q?=C3=A9=40x?=", ":;"]);
    // [12.4]: an ASCII phrase stays.
    assert_eq!(pieces("A \"b c\" <é@x>"), ["A", "\"b c\"", "=?UTF-8?Q?=C3=A9=40x?=", ":;"]);
    assert_eq!(pieces("=?UTF-8?Q?x?= <é@x>"), ["=?UTF-8?Q?x?=", "=?UTF-8?Q?=C3=A9=40x?=", ":;"]);
    // A mailbox with an ASCII address is as in the relay.
    assert_eq!(pieces("é <a@x>, <b@y>, c@z"), [E, "<a@x>,", "<b@y>,", "c@z"]);
    // Comments keep their places.
    assert_eq!(pieces("(é) A (c) <é@x> (d), b@y"), {
        ["(", E, ")", "A", "(", "c", ")", "=?UTF-8?Q?=C3=A9=40x?=", ":;", "(", "d", "),", "b@y"]
    });
}

#[test]
fn groups() {
    assert_eq!(pieces("g: é@x;"), ["g", "=?UTF-8?Q?=C3=A9=40x?=", ":;"]);
    assert_eq!(pieces("é (é) : a@b, (c) <é@x> ; (d), b@y"), {
        [E, "(", E, ")", "=?UTF-8?Q?a=40b=2C_=28c=29_=3C=C3=A9=40x=3E?=", ":;", "(", "d", "),", "b@y"]
    });
    assert_eq!(pieces("g: é@x ;, h:;"), ["g", "=?UTF-8?Q?=C3=A9=40x?=", ":;,", "h", ":", ";"]);
    assert_eq!(pieces("g: é <a@x>, b@y;"), ["g", ":", E, "<a@x>,", "b@y", ";"]);
    assert_eq!(pieces("g: (é);"), ["g", ":", "(", E, ")", ";"]);
    assert_eq!(pieces("é:;"), [E, ":", ";"]);
}

#[test]
fn texts_that_do_not_fit() {
    // [12.6]: an inner alternative never fits here.
    unfit("<é@x <a@x>>");
    unfit("g: <é@x <a@x>>;");
    unfit("é@x, <é@x <a@x>>");
    // [12.13]: the list must fit before anything of it is used.
    for text in ["é", "é@x,", "é@x b", "(é", "g: é@x", "g: h: é@x;;", "<é@x", "a (é) b <c@d>", "é@x (", "<(c)é@x>"]
    {
        unfit(text);
    }
    let long = "é".repeat(449);
    assert_eq!(pieces(&format!("{long}@x")).last().unwrap(), ":;");
    unfit(&format!("{long}a@x"));
    unfit(&format!("g: é@x, ({})a@b;", "é".repeat(451)));
}

#[test]
fn no_copies_are_added() {
    let header = "From: é@x\r\nTo: g: é@x;\r\nCc: é <é@x>\r\nBcc: (é) a@b\r\n";
    let got = out(header);
    assert!(!got.contains("Downgraded-") && !got.contains("Removed") && !got.contains("Internationalized"));
    assert_eq!(got.matches("\r\n :;").count(), 3);
}

#[test]
fn ascii_fields_are_copied() {
    let header =
        "To: <<\r\nKeywords: x\r\nDate: (\r\nX:y\r\n z\r\nContent-Type: a;n*=b\r\nDowngraded-To: =?UTF-8?Q?x?=\r\n";
    assert_eq!(out(header), header);
}

#[test]
fn fields_that_both_profiles_share() {
    for field in [
        "Content-Type: a; n=é (é); m=\"é\"\r\n",
        "Received: from a (é) for <é@x>; b\r\n",
        "Date: (é) (é)\r\n",
        "To: é <a@b>, g: b@c;, (é) d@e\r\n",
        "Subject: é\r\n",
    ] {
        assert_eq!(out(field), relay(field));
    }
    refused("Content-Type: a;n*=é\r\n", 0, 19);
    refused("Received: for é\r\n", 0, 14);
}

/// "an encoded phrase and the row straight after it together read back as the two texts joined"
#[test]
fn a_phrase_and_an_address_read_back() {
    let characters = ["a", "b", "é", "漢", "😀", ".", "-"];
    let mut next = numbers(12);
    for _ in 0..2000 {
        let mut part = |least: usize, most: usize| {
            let len = least + next(most - least);
            (0..len).map(|_| characters[next(5)]).collect::<String>()
        };
        let (one, two, local) = (part(0, 40) + "é", part(0, 60) + "a", part(0, 80) + "é");
        let text = format!("{one} {two}  <{local}@x>");
        let got = pieces(&text);
        assert_eq!(got.last().unwrap(), ":;");
        let row = got[..got.len() - 1].join("\r\n ");
        let (read, words) = read_row(row.as_bytes()).unwrap();
        assert_eq!(String::from_utf8(read).unwrap(), format!("{one} {two}{local}@x"));
        assert!(words.iter().all(|word| std::str::from_utf8(word).is_ok()));
        // The two rows by themselves, as the relay writes them.
        let phrase = relay(&format!("To: {one} {two} <a@x>\r\n"));
        let address = relay(&format!("To: {local}@x\r\n"));
        let rows =
            phrase.matches("=?UTF-8?").count() + address.split("Removed").next().unwrap().matches("=?UTF-8?").count();
        assert_eq!(words.len(), rows);
    }
}

#[test]
fn every_other_name_is_text() {
    // Whatever looks like structure in it is text.
    for text in ["(é)", "é <a@b>", "a;n=é", "for <é@x>", "=?UTF-8?Q?x?= é", "é \t"] {
        let got = out(&format!("X-Y:\r\n \t{text}\r\n"));
        let (read, _) = read_row(got.strip_prefix("X-Y:").unwrap().as_bytes()).unwrap();
        assert_eq!(String::from_utf8(read).unwrap(), text);
    }
}
