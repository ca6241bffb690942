//! Tests: comments of other fields, request [1], and Received, request [2].

use super::*;

/// The value that is written for a value of Date.
fn date(value: &str) -> String {
    let got = out(&format!("Date:{value}\r\n"));
    got.strip_prefix("Date:").unwrap().strip_suffix("\r\n").unwrap().to_string()
}

fn date_held(value: &str) {
    assert_eq!(header(format!("Date:{value}\r\n").as_bytes()), (6, 0), "{value}");
}

#[test]
fn comments_of_other_fields() {
    let e = "\r\n =?UTF-8?Q?=C3=A9?=\r\n ";
    // [1.12]
    assert_eq!(out("Message-ID: <a(é)b@c>\r\n"), format!("Message-ID: <a({e})b@c>\r\n"));
    assert_eq!(date("[(é)]"), format!("[({e})]"));
    assert_eq!(date("(é)"), format!("({e})"));
    date_held(" \"(é)\"");
    assert_eq!(date(" \"(\" (é)"), format!(" \"(\" ({e})"));
    // [1.13]
    assert_eq!(date(" \\(é)"), format!(" \\({e})"));
    date_held(" \\\"(é)");
    date_held(" \"\\\"(é)");
    date_held(" \"(é)");
    assert_eq!(date(" \"\\\\\"(é)"), format!(" \"\\\\\"({e})"));
    assert_eq!(date(" (é) \"(x"), format!(" ({e}) \"(x"));
    date_held(" \"\\é\"(é)");
    assert_eq!(date(" \"\\\r\n \"(é)"), format!(" \"\\\r\n \"({e})"));
    // [1.14]
    date_held(" (a (é) b");
    date_held(" (é");
    date_held(" (a) (é");
    date_held(" (a\\) é");
    date_held(" (é) é");
    date_held(" é (é)");
    date_held(" (é) (é");
    assert_eq!(date(" (é) (a (b) c"), format!(" ({e}) (a (b) c"));
    assert_eq!(date(" ) (é) )"), format!(" ) ({e}) )"));
    // [1.15]
    assert_eq!(date("\tMon (x) (a (é) b)\r\n\tc "), format!("\tMon (x) (a ({e}) b)\r\n\tc "));
    assert_eq!(date(" (é(x)é)"), format!(" ({e}(x){e})"));
    assert_eq!(date("\r\n \r\n (\r\n a\r\n\t)(é)\r\n "), format!("\r\n \r\n (\r\n a\r\n\t)({e})\r\n "));
    assert_eq!(date(&format!(" ({})x", "é".repeat(11))), " (\r\n =?UTF-8?B?w6nDqcOpw6nDqcOpw6nDqcOpw6nDqQ==?=\r\n )x");
    // [1.7]
    assert_eq!(date(" ( ) (é( ))"), format!(" ( ) ({e}( ))"));
    let long = date(&format!("\r\n (é{0}\r\n {0})", "x".repeat(900)));
    assert!(long.starts_with("\r\n (\r\n =?UTF-8?Q?=C3=A9xxx") && long.ends_with("?=\r\n )"));
    // [1.17], [1.18]
    assert_eq!(date(" (\") (é)"), format!(" (\") ({e})"));
    assert_eq!(date(" (\\) é \\()"), " (\r\n =?UTF-8?Q?=29_=C3=A9_=28?=\r\n )");
    assert_eq!(date(" (é\r\n x\\\r\n\ty\\é\\\\)"), " (\r\n =?UTF-8?Q?=C3=A9_x=09y=C3=A9=5C?=\r\n )");
    assert_eq!(date(" (é\\\r\n (x))"), " (\r\n =?UTF-8?Q?=C3=A9_?=\r\n (x))");
    // [1.19]
    assert_eq!(date(" (((\" ) \\"), " (((\" ) \\");
    assert_eq!(date(" (=?UTF-8?Q?a?= (é))"), format!(" (=?UTF-8?Q?a?= ({e}))"));
    // The field's first line is the place.
    assert_eq!(header("A: b\r\nDate: (é)\r\nDate: (é)\r\n é\r\n".as_bytes()), (6, 2));
}

#[test]
fn lines_of_998_beside_a_comment() {
    // [1.16]
    let before = "b".repeat(998 - "Date:(é)".len());
    let got = out(&format!("Date:{before}(é)\r\n (é){before}bbbb\r\n"));
    assert!(got.split("\r\n").all(|line| line.len() <= 998));
    let got = out(&format!("Date: (é\r\n ){}\r\n", "b".repeat(996)));
    assert!(got.split("\r\n").any(|line| line.len() == 998));
}

#[test]
fn deep_comments() {
    let line = |b: &str| format!("\r\n {}", b.repeat(900));
    let (open, close) = (line("(").repeat(17), line(")").repeat(17));
    for name in ["To", "Date"] {
        let closed = out(&format!("{name}:{open}é{close}\r\n a@b\r\n"));
        assert_eq!(closed.matches('(').count(), 17 * 900);
        assert_eq!(closed.matches(')').count(), 17 * 900);
        assert_eq!(closed.matches("=?UTF-8?Q?=C3=A9_?=").count(), 1);
    }
    let unclosed = format!("{open}é{}", close.replacen(')', "", 1));
    assert!(out(&format!("To:{unclosed}\r\n a@b\r\n")).starts_with("Downgraded-To:"));
    date_held(&unclosed);
}

/// A comment by its grammar: `(`, then escapes, comments and other characters, then `)`.
fn comment_by_grammar(s: &[u8]) -> Option<&[u8]> {
    let mut rest = s.strip_prefix(b"(")?;
    loop {
        rest = match rest {
            [b')', behind @ ..] => return Some(behind),
            [b'(', ..] => comment_by_grammar(rest)?,
            [b'\\', _, behind @ ..] => behind,
            [b'\\'] | [] => return None,
            [_, behind @ ..] => behind,
        };
    }
}

#[test]
fn ends_of_comments() {
    let bytes = b"()\\a";
    for len in 0..=8u32 {
        for n in 0..4usize.pow(len) {
            let s: Vec<u8> = std::iter::once(b'(').chain((0..len).map(|at| bytes[n >> (2 * at) & 3])).collect();
            let want = comment_by_grammar(&s).map(|behind| s.len() - behind.len());
            assert_eq!(crate::comment::comment_end(&s, 0), want, "{s:?}");
        }
    }
}

// Received

/// The value that is written for a value of Received.
fn received(value: &str) -> String {
    let got = out(&format!("Received:{value}\r\n"));
    got.strip_prefix("Received:").unwrap().strip_suffix("\r\n").unwrap().to_string()
}

fn received_held(value: &str) {
    let header = format!("A: b\r\nReceived:{value}\r\n");
    let envelope = MAIL.to_string() + RCPT;
    // [8.5]
    let offset = header.bytes().position(|b| b >= 128).unwrap();
    assert_eq!(offset_of(envelope.as_bytes(), header.as_bytes()), (6, 1, offset), "{value:?}");
}

#[test]
fn clauses_that_go() {
    assert_eq!(
        received(" from a by b with ESMTP id 1\r\n\tfor <λιμάνι@example.gr>; Mon, 1 Jan 2024 00:00:00 +0000"),
        " from a by b with ESMTP id 1; Mon, 1 Jan 2024 00:00:00 +0000"
    );
    // [2.7]
    for (value, want) in [
        (" by b for <é@x>", " by b"),
        (" by b for <é@x> ", " by b "),
        (" by b for <é@x>\r\n ; x", " by b\r\n ; x"),
        (" by b \t\r\n \r\n\t for\t\r\n \r\n <é@x>\t;", " by b\t;"),
        ("for <é@x>", ""),
        (" for <é@x>", ""),
        ("\r\n for <é@x>", ""),
        ("\r\n \t\r\n for\r\n\t<é@x>\r\n ", "\r\n "),
        (" x for <é@x>y", " xy"),
        (" x for<é@x>y", " xy"),
        (" x FOR <é@x>", " x"),
        (" x fOr <é@x>", " x"),
        (" (c) for <é@x>(d)", " (c)(d)"),
        (" ; for <é@x>;", " ;;"),
        // [2.10], and the local part or the domain alone.
        (" for <\"é b\\\"\"@x>", ""),
        (" for <\"é>\"@x>y", "y"),
        (" for <é@[1>]>y", "y"),
        (" for <a.b@ü.é>", ""),
        (" for <a@ü>", ""),
        (" for <é@[]>", ""),
        // [2.11]
        (" for <a@b> for <é@x>", " for <a@b>"),
        (" for <é@x> for <a@b> for <é@x>\tfor <ü@x>;", " for <a@b>;"),
        (" for <é@x>\r\n for <é@x>", ""),
        (" for<é@x> for<é@x> x", " x"),
        (" for <a@b>for <a@b> for <é@x>", " for <a@b>for <a@b>"),
    ] {
        assert_eq!(received(value), want, "{value:?}");
    }
    // Names in any case, and several fields.
    assert_eq!(
        out("RECEIVED: a for <é@x>\r\nreceived: for <a@b>\r\nReceived: b\r\n for <é@x>\r\n c\r\n"),
        "RECEIVED: a\r\nreceived: for <a@b>\r\nReceived: b\r\n c\r\n"
    );
    // Other names have no clauses.
    date_held(" for <é@x>");
    assert!(out("X: for <é@x>\r\n").starts_with("Downgraded-X: =?"));
    // [2.10]: no bound of 900, but that of the line.
    let long = "b".repeat(960);
    assert_eq!(received(&format!(" x\r\n for <{long}é@x> y")), " x y");
}

#[test]
fn what_is_no_clause() {
    // [2.1]
    received_held("a:for <é@x>");
    received_held(" a:for <é@x>");
    // [2.6]
    for value in [
        "(c)for <é@x>", ";for <é@x>", " for <a@b>for <é@x>", " for <é@x>for <é@x>", " for;<é@x>", " for(c) <é@x>",
        " xfor <é@x>", " for\"a\" <é@x>", " fo <é@x>", " forr <é@x>", "\u{b}for <é@x>", " <é@x>", " \"a\"for <é@x>",
        " for\u{b}<é@x>", ">for <é@x>", " fór <é@x>",
    ] {
        received_held(value);
    }
    let e = "\r\n =?UTF-8?Q?=C3=A9?=\r\n ";
    for value in ["for;", " for;", " for(", "(c)for <", ";for", " xfor ", " for(c)", " a:for ", "for.", " forx "] {
        assert_eq!(received(&format!("(é){value}")), format!("({e}){value}"));
    }
    // [2.2]
    assert_eq!(received(" (é) for"), format!(" ({e}) for"));
    assert_eq!(received(" (é)\r\n FOR"), format!(" ({e})\r\n FOR"));
    for value in [" (é) for ", " (é) for\t", " (é) for\r\n ", "for (é)", " (é) for<"] {
        received_held(value);
    }
    // [2.5]
    for address in [
        "a@b", "<>", "<Postmaster>", "(c) <a@b>", "< a@b>", "<a@b ", "<a@b", "<a@b >", "<é@x <a@b>>", "<@a:b@c>",
        "<a>", "<a@b.>", "<\"a\r\n b\"@c>", "<\"a\tb\"@c>", "<a@\r\n b>", "<a@[é]>", "<\"\\é\"@x>", "a", ";", "\"a\"",
        "<a@b;>", "<a..b@c>", "é@x", "<<é@x>>", "for <é@x>",
    ] {
        received_held(&format!(" (é) for {address}"));
        received_held(&format!(" for <é@x> for {address}"));
        received_held(&format!(" for\r\n {address} for <é@x>"));
        if address.is_ascii() {
            assert_eq!(received(&format!(" for {address}")), format!(" for {address}"));
        }
    }
    // "with non-ASCII left elsewhere"
    for value in [" é for <é@x>", " for <é@x> é", " for <é@x> <é@x>", " for <é@x>é", " \"é\" for <é@x>", " é"]
    {
        received_held(value);
    }
    // Inside strings and comments.
    received_held(" \" for <é@x>\"");
    received_held(" \" for <é@x>");
    received_held(" \"\\\" for <é@x>");
    assert_eq!(received(" \" for \" for <é@x>"), " \" for \"");
    assert_eq!(received(" \"\\\" for \" for <é@x>"), " \"\\\" for \"");
    assert_eq!(received(" ( for ) for <é@x>"), " ( for )");
    assert_eq!(received(" ( for <é@x>) y"), " (\r\n =?UTF-8?Q?_for_=3C=C3=A9=40x=3E?=\r\n ) y");
    assert_eq!(received(" (a \" for ) for <é@x> \" for "), " (a \" for ) \" for ");
    // A backslash outside strings and comments escapes nothing.
    assert_eq!(received(" \\ for <é@x>"), " \\");
    received_held(" \\\" for <é@x>");
}

#[test]
fn comments_of_received() {
    let e = "\r\n =?UTF-8?Q?=C3=A9?=\r\n ";
    assert_eq!(received(" (é)"), format!(" ({e})"));
    assert_eq!(received(" from a (é) for <é@x> (b(é))"), format!(" from a ({e}) (b({e}))"));
    assert_eq!(received(" (é) for <a@b> x"), format!(" ({e}) for <a@b> x"));
    assert_eq!(received(" <a(é)b>"), format!(" <a({e})b>"));
    assert_eq!(received(" \"(\" for <é@x> (é)"), format!(" \"(\" ({e})"));
    // [2.3]
    assert_eq!(received(" for <é@[(]>"), "");
    assert_eq!(received(" for <a@[(]> (é)"), format!(" for <a@[(]> ({e})"));
    assert_eq!(received(" for <\"(é\"@x> (é)"), format!(" ({e})"));
    assert_eq!(received(" for <\"(\"@[(]> (é) )"), format!(" for <\"(\"@[(]> ({e}) )"));
    received_held(" <a@[(]> (é)");
    assert_eq!(received(" <a@[(]> é)"), " <a@[(\r\n =?UTF-8?Q?=5D=3E_=C3=A9?=\r\n )");
    assert_eq!(received(" (a for <é@[)]>"), " (\r\n =?UTF-8?Q?a_for_=3C=C3=A9=40=5B?=\r\n )]>");
    // [2.4]
    assert_eq!(received(" (a for <é@x>"), " (a");
    assert_eq!(received(" (é) (a for <é@x> (b"), format!(" ({e}) (a (b"));
    assert_eq!(received(" (a (b) for <é@x>"), " (a (b)");
    assert_eq!(received("( for <é@x>"), "(");
    received_held("(for <é@x>");
    received_held(" (a (é) for <é@x>");
    received_held(" (a \" for <é@x>\"");
    assert_eq!(received(" (a \" for \" for <é@x>"), " (a \" for \"");
    received_held(" (a \\) for é");
    assert_eq!(received(" (a \\) for <é@x>"), " (a \\)");
    // [2.8]: what a removal brings together is neither a clause nor a comment.
    received_held(" for <é@x>for <é@x>");
    assert_eq!(received(" f for <é@x>or <a@b>"), " for <a@b>");
    assert_eq!(received(" x for <é@x>( for <a@b>"), " x( for <a@b>");
}

#[test]
fn lines_of_received_that_grow() {
    // [2.9]: the name and its colon, what stands before the clause, and what stands behind it, on one line.
    for (before, fold) in [(500, "\r\n for <é@x>"), (980, "\r\n for\r\n <é@x>"), (20, "\r\n\tfor\t<é@x>")] {
        let value = |len: usize| "b".repeat(before) + fold + &"c".repeat(len - before - "Received:".len());
        assert_eq!(received(&value(998)), value(998).replace(fold, ""));
        received_held(&value(999));
    }
    // A fold behind the clause, and the words of a comment, start lines anew.
    let (b, c) = ("b".repeat(980), "c".repeat(970));
    assert_eq!(received(&format!("{b}\r\n for <é@x>\r\n {c}")), format!("{b}\r\n {c}"));
    received_held(&format!("{b}\r\n for <é@x>{c}"));
    let e = "\r\n =?UTF-8?Q?=C3=A9?=\r\n ";
    assert_eq!(received(&format!("{b}\r\n for <é@x>(é){c}")), format!("{b}({e}){c}"));
    received_held(&format!("{b}\r\n for <é@x>bbbbbbbbb(é){c}"));
    // Later lines, on which the name does not stand.
    let line = |len: usize| format!("x\r\n {}\r\n for <é@x>{}", "b".repeat(500), "c".repeat(len - 501));
    assert_eq!(received(&line(998)), line(998).replace("\r\n for <é@x>", ""));
    received_held(&line(999));
    // Three lines made one.
    let three = |len: usize| {
        let fold = "\r\n for <é@x>";
        format!("{}{fold}{}{fold}{}", "b".repeat(300), "c".repeat(300), "d".repeat(len - 609))
    };
    assert_eq!(received(&three(998)).len(), 989);
    received_held(&three(999));
    // A second field is another one.
    let header = format!("Received: for <é@x>\r\nReceived:{}\r\n", line(999));
    assert_eq!(answer((MAIL.to_string() + RCPT).as_bytes(), header.as_bytes()), (6, 1));
}

// The setting
