//! Tests: envelope lines and what is written for them, and request [13].

use super::*;

#[test]
fn envelope_line_forms() {
    for line in [
        "RCPT TO:<b@y>", "rcpt to:<b@y>", "RcPt tO:<Postmaster>", "RCPT TO:<pOSTMASTER>", "RCPT TO:<b@y> X",
        "RCPT TO:<b@y> X=1 y-=2 9=+", "RCPT TO:<b@y> ORCPT", "RCPT TO:<b@y> ORCPT=a ORCPT=b", "RCPT TO:<\"\"@y>",
        "RCPT TO:<\"a b>\\\"\\\\\"@y>", "RCPT TO:<b@[]>", "RCPT TO:<b@[1.2.3.4>^~!<:;@,\"]>",
        "RCPT TO:<a.b!#$%&'*+-/=?^_`{|}~@c.d>", "RCPT TO:<b@y> X=+2b:;,<>@\\\"()[]",
    ] {
        assert_eq!(rcpt(line), (0, 0), "{line}");
    }
    for line in [
        "",
        "RCPT",
        "RCPT TO:",
        "RCPT TO:<>",
        "RCPT TO:<b>",
        "RCPT TO:b@y",
        "RCPT TO:<b@y",
        "RCPT TO: <b@y>",
        "RCPT  TO:<b@y>",
        "RCPT TO :<b@y>",
        "RCPTTO:<b@y>",
        " RCPT TO:<b@y>",
        "RCPT TO:<b@y> ",
        "RCPT TO:<b@y>  X",
        "RCPT TO:<b@y>X",
        "RCPT TO:<b@y>\tX",
        "RCPT TO:<b@y> -X",
        "RCPT TO:<b@y> X_Y",
        "RCPT TO:<b@y> X=",
        "RCPT TO:<b@y> =1",
        "RCPT TO:<b@y> X=a=b",
        "RCPT TO:<b@y> X=a\tb",
        "RCPT TO:<b@y> X=\u{7f}",
        "RCPT TO:<b@y> X=é",
        "RCPT TO:<b@y> Xé=1",
        "RCPT TO:<é@y> ALT-ADDRESS",
        "RCPT TO:<é@y> ALT-ADDRESS=",
        "RCPT TO:<é@y> ALT-ADDRESS=é@x",
        "RCPT TO:<é@y> ALT-ADDRESS=a@x alt-address=a@x",
        "RCPT TO:<é@y> ALT-ADDRESS=a=b@x",
        "RCPT TO:<b@y> ALT-ADDRESS",
        "RCPT TO:<@x:b@y>",
        "RCPT TO:<@x,@z:b@y>",
        "RCPT TO:< b@y>",
        "RCPT TO:<b@y >",
        "RCPT TO:<Postmaster@>",
        "RCPT TO:<Postmasters>",
        "RCPT TO:<.b@y>",
        "RCPT TO:<b.@y>",
        "RCPT TO:<b..c@y>",
        "RCPT TO:<b@.y>",
        "RCPT TO:<b@y.>",
        "RCPT TO:<b@y@z>",
        "RCPT TO:<\"b@y>",
        "RCPT TO:<\"b\"c@y>",
        "RCPT TO:<\"b\".c@y>",
        "RCPT TO:<\"b\\\"@y>",
        "RCPT TO:<\"b\\é\"@y> ALT-ADDRESS=a@x",
        "RCPT TO:<\"b\tc\"@y>",
        "RCPT TO:<\"b\u{7f}c\"@y>",
        "RCPT TO:<b@[>",
        "RCPT TO:<b@[1\\2]>",
        "RCPT TO:<b@[1[2]>",
        "RCPT TO:<b@[1 2]>",
        "RCPT TO:<b@[é]> ALT-ADDRESS=a@x",
        "RCPT TO:<b@[1]x>",
        "MAIL FROM:<b@y>",
        "DATA",
    ] {
        assert_eq!(rcpt(line), (2, 1), "{line}");
    }
}

#[test]
fn mail_line_forms() {
    assert_eq!(envelope(&["mail from:<>", "RCPT TO:<b@y>"]), (0, 0));
    assert_eq!(envelope(&["MAIL FROM:<> SIZE=1", "RCPT TO:<b@y>"]), (0, 0));
    assert_eq!(envelope(&["MAIL FROM:<Postmaster>", "RCPT TO:<b@y>"]), (2, 0));
    assert_eq!(envelope(&["MAIL FROM:<a@x> ORCPT=é", "RCPT TO:<b@y>"]), (6, 0));
    assert_eq!(envelope(&["MAIL FROM:<a@x>", "MAIL FROM:<a@x>"]), (2, 1));
}

#[test]
fn bad_utf8_in_an_envelope() {
    for bad in [
        &b"\x80"[..],
        b"\xC3",
        b"\xC0\x80",
        b"\xC1\xBF",
        b"\xE0\x9F\xBF",
        b"\xED\xA0\x80",
        b"\xF0\x8F\xBF\xBF",
        b"\xF4\x90\x80\x80",
        b"\xF5\x80\x80\x80",
        b"\xFF",
    ] {
        for (before, after) in
            [(&b"RCPT TO:<"[..], &b"@y> ALT-ADDRESS=a@x\r\n"[..]), (b"RCPT TO:<b@y> ORCPT=", b"\r\n")]
        {
            let line = [MAIL.as_bytes(), before, bad, after].concat();
            assert_eq!(answer(&line, b""), (2, 1), "{bad:?}");
        }
        assert_eq!(header(&[b"A: b\r\nX: ", bad, b"\r\n"].concat()), (5, 1), "{bad:?}");
    }
    for good in ["\u{80}", "\u{7ff}", "\u{800}", "\u{d7ff}", "\u{e000}", "\u{ffff}", "\u{10000}", "\u{10ffff}"] {
        assert_eq!(rcpt(&format!("RCPT TO:<{good}@y> ALT-ADDRESS=a@x")), (0, 0));
        assert_eq!(subject_words(good).len(), 1);
    }
}

#[test]
fn alternatives() {
    for (value, number) in [
        ("a@x", 0),
        ("\"a+20b\"@x", 0),
        ("a+3Db@x", 0),
        ("a@[1]", 0),
        ("+61+40+78", 0),
        ("a+40x", 0),
        ("a", 4),
        ("Postmaster", 4),
        ("a@", 4),
        ("<a@x>", 4),
        ("a@x,b@x", 4),
        ("a+@x", 4),
        ("a@x+", 4),
        ("a@x+2", 4),
        ("a+2bx@x", 4),
        ("a+GGx@x", 4),
        ("a+C3+A9@x", 4),
        ("a+00@x", 4),
        ("a+20b@x", 4),
        ("\"a+0Ab\"@x", 4),
        ("\"a+09b\"@x", 4),
    ] {
        assert_eq!(rcpt(&format!("RCPT TO:<é@y> ALT-ADDRESS={value}")).0, number, "{value}");
    }
    // The empty path and Postmaster are ASCII paths.
    assert_eq!(envelope(&["MAIL FROM:<> ALT-ADDRESS=a@x", "RCPT TO:<b@y>"]), (4, 0));
    assert_eq!(rcpt("RCPT TO:<postmaster> ALT-ADDRESS=a@x"), (4, 1));
}

#[test]
fn envelope_written() {
    let (_, envelope, header) = call(
        "mail From:<é@x> BODY=8BITMIME Alt-Address=\"a+20b\"@x SIZE=5\r\nRCPT TO:<á@y> alt-address=c@y X\r\n"
            .as_bytes(),
        b"A: b\r\n",
    );
    assert_eq!(envelope, "mail From:<\"a b\"@x> BODY=8BITMIME SIZE=5\r\nRCPT TO:<c@y> X\r\n");
    assert_eq!(
        header,
        "Downgraded-Mail-From: =?UTF-8?Q?=3C=C3=A9=40x_=3C=22a_b=22=40x=3E=3E?=\r\n\
         Downgraded-Rcpt-To: =?UTF-8?Q?=3C=C3=A1=40y_=3Cc=40y=3E=3E?=\r\nA: b\r\n"
    );
    // Two RCPT lines: no Downgraded-Rcpt-To, also for the same recipient.
    let (_, envelope, header) =
        call("MAIL FROM:<>\r\nRCPT TO:<á@y> ALT-ADDRESS=c@y\r\nRCPT TO:<á@y> ALT-ADDRESS=c@y\r\n".as_bytes(), b"");
    assert_eq!(envelope, "MAIL FROM:<>\r\nRCPT TO:<c@y>\r\nRCPT TO:<c@y>\r\n");
    assert_eq!(header, "");
}

// Header lines

/// [13.2]: "every number but 0"
const CURRENT: [u64; 8] = [1, 2, 255, 256, 1 << 16, 1 << 32, 1 << 63, u64::MAX];

#[test]
fn alternatives_in_a_current_envelope() {
    let answer = |setting: u64, lines: &[&str], header: &str| {
        let envelope = lines.join("\r\n") + "\r\n";
        let (answer, ..) = call_set(setting, envelope.as_bytes(), header.as_bytes());
        assert!(answer.number == 0 || answer.input == ENVELOPE);
        (answer.number, answer.place, answer.offset)
    };
    for setting in CURRENT {
        // [13.1]: beside any path, xtext or not. [13.4]: the first byte of the value.
        for path in ["a@x", "é@x"] {
            for value in ["a@x", "a", "+2b", "a+2Bb@x", "+", "<>"] {
                let line = format!("MAIL FROM:<{path}> X=1 Alt-Address={value} Y");
                let offset = line.find("ess=").unwrap() + 4;
                assert_eq!(answer(setting, &[&line, "RCPT TO:<b@y>"], "bad"), (10, 0, offset));
                let line = format!("RCPT TO:<{path}> ALT-ADDRESS={value}");
                let offset = 17 + line.find("ESS=").unwrap() + 4;
                assert_eq!(answer(setting, &["MAIL FROM:<a@x>", &line], ""), (10, 1, offset));
            }
        }
        assert_eq!(answer(setting, &["MAIL FROM:<> ALT-ADDRESS=a@x", "RCPT TO:<b@y>"], ""), (10, 0, 25));
        assert_eq!(answer(setting, &["MAIL FROM:<>", "RCPT TO:<Postmaster> ALT-ADDRESS=a@x"], ""), (10, 1, 47));
        for line in [
            "RCPT TO:<é@x> ALT-ADDRESS",
            "RCPT TO:<é@x> ALT-ADDRESS=",
            "RCPT TO:<é@x> ALT-ADDRESS=a ALT-ADDRESS=a",
            "RCPT TO:<é@x> ALT-ADDRESS=a=",
            "RCPT TO:<é@x> ALT-ADDRESS=é",
            "RCPT TO:<é@x> ALT-ADDRESS=a -",
        ] {
            let current = answer(setting, &["MAIL FROM:<>", line], "");
            assert_eq!(current.0, 2, "{line}");
            assert_eq!(current, answer(0, &["MAIL FROM:<>", line], ""));
        }
        // [13.3]
        assert_eq!(answer(setting, &["MAIL FROM:<> ALT-ADDRESS=a@x", "bad"], "bad"), (10, 0, 25));
        assert_eq!(answer(setting, &["MAIL FROM:<é@x>", "RCPT TO:<é@y> ALT-ADDRESS=a@x"], ""), (3, 0, 11));
        assert_eq!(answer(setting, &["MAIL FROM:<>", "bad", "RCPT TO:<b@y> ALT-ADDRESS=a@x"], ""), (2, 1, 14));
        assert_eq!(answer(setting, &["MAIL FROM:<>", "RCPT TO:<b@y> ORCPT=é ALT-ADDRESS=a"], "Date: é\r\n").0, 10);
        assert_eq!(answer(setting, &["MAIL FROM:<>", "RCPT TO:<b@y> ORCPT=é"], "").0, 6);
        let long = "x".repeat(16_385);
        assert_eq!(answer(setting, &["MAIL FROM:<> ALT-ADDRESS=a@x", &long], ""), (1, 0, 0));
        let refused = downgrade(setting, "MAIL FROM:<> ALT-ADDRESS=a@x\r\n".as_bytes(), b"", &mut [], &mut []);
        assert_eq!((refused.number, refused.envelope_len, refused.header_len), (10, 0, 0));
        // ALT-ADDRESS is another parameter in no other way.
        assert_eq!(answer(setting, &["MAIL FROM:<>", "RCPT TO:<b@y> ALT-ADDRESSX=a ALT-ADDRES=b"], ""), (0, 0, 0));
    }
    assert_eq!(answer(0, &["MAIL FROM:<é@x> ALT-ADDRESS=a@x", "RCPT TO:<b@y>"], ""), (0, 0, 0));
    assert_eq!(answer(0, &["MAIL FROM:<> ALT-ADDRESS=a@x", "RCPT TO:<b@y>"], ""), (4, 0, 25));
}

#[test]
fn inner_alternatives_of_a_current_message() {
    let envelope = MAIL.to_string() + RCPT;
    let current = |setting: u64, header: &str| {
        let (answer, _, out) = call_set(setting, envelope.as_bytes(), header.as_bytes());
        assert_eq!(answer.number, 0, "{header:?}");
        out
    };
    for setting in CURRENT {
        // [13.5]: also where a group would go as a whole.
        for text in [
            "<é@x <a@b>>", "é <é@x <a@b>>", "b@c, <é@x <a@b>>", "g:<é@x <a@b>>;", "g:é@x,<é@x <a@b>>;",
            "<é@x\t< a@b>> (c)",
        ] {
            let row = current(setting, &format!("To: {text}\r\n"));
            let row = row.strip_prefix("Downgraded-To:").unwrap().strip_suffix("\r\n").unwrap();
            assert_eq!(read_row(row.as_bytes()).unwrap().0, text.as_bytes());
        }
        let ascii = "To: <a@b <c@d>>\r\n";
        assert_eq!(current(setting, ascii), ascii);
        // Without one all is as ever.
        for header in [
            "To: é@x\r\n", "To: é <a@b>, g:é@x;\r\n", "From: (é) <é@x>\r\n", "Subject: é\r\n", "X: <é@x <a@b>>\r\n",
            "Received: x for <é@x>\r\n", "To: é <a@b <c@d>>\r\n",
        ] {
            assert_eq!(current(setting, header), out(header), "{header}");
        }
    }
    assert!(out("To: <é@x <a@b>>\r\n").starts_with("To:\r\n <a@b>\r\nDowngraded-To: "));
}

// The batch
