//! Tests: address fields, and requests [1] and [4] for them.

use super::*;

#[test]
fn mailboxes_that_fit() {
    let e = "=?UTF-8?Q?=C3=A9?=";
    fits("é <a@x>", &[e, "<a@x>"]);
    fits("é<a@x>", &[e, "<a@x>"]);
    fits("é \t< \ta@x> \t", &[e, "<a@x>"]);
    fits("<é@x <a@x>>", &["<a@x>"]);
    fits("< é@x \t< a@x>>", &["<a@x>"]);
    fits("b c. \"d\" <é@x <\"a b\"@[1]>>", &["b", "c.", "\"d\"", "<\"a b\"@[1]>"]);
    fits("a@x, é@x", &["a@x,", "Internationalized Address", "=?UTF-8?Q?=C3=A9=40x?=", "Removed:;"]);
    fits(
        "é@x ,<é@x>\t",
        &[
            "Internationalized Address", "=?UTF-8?Q?=C3=A9=40x?=", "Removed:;,", "Internationalized Address",
            "=?UTF-8?Q?=C3=A9=40x?=", "Removed:;",
        ],
    );
    fits("b <é@x>", &["b", "Internationalized Address", "=?UTF-8?Q?=C3=A9=40x?=", "Removed:;"]);
    fits("a \"é \\\"\\\\\\b\"\t \"\" c <a@x>", &["=?UTF-8?Q?a_=C3=A9_=22=5Cb__c?=", "<a@x>"]);
    fits("... <é@x <a@x>>", &["...", "<a@x>"]);
    fits("\"a,<b:;\"@x, é <a@x>", &["\"a,<b:;\"@x,", e, "<a@x>"]);
    fits("a@[1,<2>:;], é <a@x>", &["a@[1,<2>:;],", e, "<a@x>"]);
}

#[test]
fn groups_that_fit() {
    let e = "=?UTF-8?Q?=C3=A9?=";
    fits("é:;", &[e, ":", ";"]);
    fits("é \t: \t; \t", &[e, ":", ";"]);
    fits("a b : é <a@x> , b@y ; , c:d@z;", &["a", "b", ":", e, "<a@x>,", "b@y", ";,", "c", ":", "d@z", ";"]);
    fits("g:<é@x <a@x>>;", &["g", ":", "<a@x>", ";"]);
}

#[test]
fn groups_that_lose_a_member() {
    let (e, words) = ("=?UTF-8?Q?=C3=A9?=", "Internationalized Address");
    let e_at_x = "=?UTF-8?Q?=C3=A9=40x?=";
    fits("é:é@x;", &[e, words, e_at_x, "Removed:;"]);
    fits("a \"b\" : <é@x> ;", &["a", "\"b\"", words, "=?UTF-8?Q?=3C=C3=A9=40x=3E?=", "Removed:;"]);
    // [4.1]: comments before the colon are pieces, those behind it are text.
    fits("g (c)(é) :é@x;", &["g", "(", "c", ")", "(", e, ")", words, e_at_x, "Removed:;"]);
    fits("(c) g:é@x;", &["(", "c", ")", "g", words, e_at_x, "Removed:;"]);
    fits("g:(c)é@x(\\é ( ));", &["g", words, "=?UTF-8?Q?=28c=29=C3=A9=40x=28=5C=C3=A9_=28_=29=29?=", "Removed:;"]);
    fits(
        "g:\"q\\r\" <a@b>\t,\r\n <é@y  <b@c>> ,é@x;",
        &["g", words, "=?UTF-8?B?InFcciIgPGFAYj4JLCA8w6lAeSAgPGJAYz4+ICzDqUB4?=", "Removed:;"],
    );
    for (blanks, fold) in [(" ", "\r\n "), (" \t ", "\t\r\n\t\r\n "), ("\t", "\r\n\t")] {
        fits(&format!("g{blanks}:{blanks}é@x{blanks};{blanks}"), &["g", words, e_at_x, "Removed:;"]);
        fits(&format!("g{fold}:{fold}é@x{fold};{fold}"), &["g", words, e_at_x, "Removed:;"]);
    }
    fits("g: (c) é@x ( ) ;", &["g", words, "=?UTF-8?Q?=28c=29_=C3=A9=40x_=28_=29?=", "Removed:;"]);
    // [4.3]: neither mark is written; a comma joins what was written last.
    fits("g:é@x; , a@b", &["g", words, e_at_x, "Removed:;,", "a@b"]);
    fits("g:é@x;(c),a@b", &["g", words, e_at_x, "Removed:;", "(", "c", "),", "a@b"]);
    fits("g:é@x; (é) (c) ", &["g", words, e_at_x, "Removed:;", "(", e, ")", "(", "c", ")"]);
    fits("g:é@x;,h:;", &["g", words, e_at_x, "Removed:;,", "h", ":", ";"]);
    fits("h:;,g:é@x;,é:é@x;", &["h", ":", ";,", "g", words, e_at_x, "Removed:;,", e, words, e_at_x, "Removed:;"]);
    // [4.4]: one member is enough, whichever; alternatives alone leave the group as it was.
    for members in ["é@x,a@b,<c@d>", "a@b,é@x,<c@d>", "a@b,<c@d>,é@x"] {
        let row = "=?UTF-8?Q?".to_string() + &members.replace('é', "=C3=A9").replace('@', "=40").replace(',', "=2C");
        let row = row.replace('<', "=3C").replace('>', "=3E") + "?=";
        fits(&format!("g:{members};"), &["g", words, &row, "Removed:;"]);
    }
    fits("g:<é@x <a@b>>;", &["g", ":", "<a@b>", ";"]);
    fits("é:<é@x <a@b>>,é <é@x <c@d>>;", &[e, ":", "<a@b>,", e, "<c@d>", ";"]);
    fits("g:é <a@b>,c@d(é);", &["g", ":", e, "<a@b>,", "c@d", "(", e, ")", ";"]);
    fits("é:;,g:(é);", &[e, ":", ";,", "g", ":", "(", e, ")", ";"]);
    fits("g:<é@x <a@b>>,é@x;", &["g", words, "=?UTF-8?Q?=3C=C3=A9=40x_=3Ca=40b=3E=3E=2C=C3=A9=40x?=", "Removed:;"]);
    // [4.5]
    fits("é@x,g:a@b;", &[words, e_at_x, "Removed:;,", "g", ":", "a@b", ";"]);
    fits("b <é@x>,g:é@x;", &["b", words, e_at_x, "Removed:;,", "g", words, e_at_x, "Removed:;"]);
    // The copy has the whole text.
    assert_eq!(lines("Cc: g: é@x ;\r\n")[5..], ["Downgraded-Cc: =?UTF-8?Q?g=3A_=C3=A9=40x_=3B?="]);
    assert_eq!(lines("Cc: g:é <a@b>;\r\n").last().unwrap(), ";");
}

#[test]
fn groups_that_lose_a_member_must_fit() {
    // [4.2]
    let long = "b".repeat(900);
    let address = "b".repeat(898) + "@x";
    for (fit, unfitting) in [
        (format!("g:é@x,\r\n {address};"), format!("g:é@x,\r\n b{address};")),
        (format!("g:{long}\r\n <é@x>;"), format!("g:{long}b\r\n <é@x>;")),
        (format!("g:é@x\r\n ({long});"), format!("g:é@x\r\n ({long}b);")),
        (format!("g:<é@x\r\n <{address}>>,é@x;"), format!("g:<é@x\r\n <b{address}>>,é@x;")),
        (format!("g:é@x;\r\n ({long})"), format!("g:é@x;\r\n ({long}b)")),
        (format!("{long}\r\n :é@x;"), format!("{long}b\r\n :é@x;")),
    ] {
        let got = out(&format!("To: {fit}\r\n"));
        assert!(got.starts_with("To:\r\n ") && got.contains("\r\n Removed:;\r\n"), "{fit}");
        unfit(&unfitting);
    }
    for text in ["g:é@x", "g:é@x,;", "g:é@x;;", "g:é@x;a@b", "g:h:é@x;;", "g:é@x (;", "g:é@x,<a@b >;", ":é@x;"]
    {
        unfit(text);
    }
    // The row of the members is as long as they are.
    let members = vec!["é@x"; 300].join(",\r\n ");
    let got = out(&format!("To: g:{members};\r\n"));
    let row = got.split_once("Address").unwrap().1.split_once("\r\n Removed:;\r\n").unwrap().0;
    assert_eq!(read_row(row.as_bytes()).unwrap().0, members.replace("\r\n", "").as_bytes());
}

#[test]
fn the_copy_follows_a_replaced_address() {
    assert_eq!(
        lines("Cc: é <é@x \t<a@x>>\r\n")[3..],
        ["Downgraded-Cc: =?UTF-8?Q?=C3=A9_=3C=C3=A9=40x_=09=3Ca=40x=3E=3E?="]
    );
    assert_eq!(lines("Cc: é <a@x>\r\n").len(), 3);
    assert_eq!(
        lines("cC: é <a@x>, é@y \r\n").last().unwrap(),
        "Downgraded-cC: =?UTF-8?Q?=C3=A9_=3Ca=40x=3E=2C_=C3=A9=40y_?="
    );
}

#[test]
fn texts_that_do_not_fit() {
    for text in [
        "é", "é,", ",é@x", "é@x,", "é@x,,a@x", "é@x, ,a@x", "é@x a@x", "é@x;", "é@x:", "é@x <a@x>", "é a@x", "a@x é",
        "é <a@x >", "é <a@x> x", "é <a@x", "é <>", "é < >", "é <a>", "é <a@x>>", "é <<a@x>>", "é <a@x<b@x>>",
        "<é@x<a@x>>", "<é@x <a@x> >", "<é@x <a@x >>", "<é@x <á@x>>", "<a@x <b@x>>, é@x", "<é@x <a@x> <b@x>>",
        "<é@x a@x>", "<é@x <a@x>", "<é@x <>>", "é:", "é:a@x", "é:,;", "é:a@x,;", "é:,a@x;", "é:a@x;;", "é:a@x;b@x",
        "é:;b@x", "é:a@x:;", "é:b:;;", "é:b:c@x;;", ":;é@x", "é\"b\" <a@x>", "\"é\"b <a@x>", "\"é\"\"b\" <a@x>",
        "\"é <a@x>", "\"\\é\" <a@x>", "\"\u{7f}é\" <a@x>", "é \u{7f} <a@x>", "é [b] <a@x>", "é ) <a@x>", "é..@x",
        "é.@x", ".é@x", "é@x.", "é@", "@x,é@x", "é@[é]", "é@[\\]", "\"é\"@", "é b@x", "é <a@x>,b", "é <@b:a@x>",
        "é <a@x>\t<a@x>", "é : <a@x> : ;", ";é@x", "é@x, g : ; ;",
    ] {
        unfit(text);
    }
}

#[test]
fn words_and_addresses_of_900() {
    let long = "b".repeat(900);
    let address = "b".repeat(898) + "@x";
    let e = "=?UTF-8?Q?=C3=A9?=";
    // Folded, since a line has at most 998 bytes.
    fits(&format!("{long}\r\n <é@x <a@x>>"), &[&long, "<a@x>"]);
    unfit(&format!("{long}b\r\n <é@x <a@x>>"));
    let quoted = format!("\"{}\"", "b".repeat(898));
    fits(&format!("{quoted}\r\n <é@x <a@x>>"), &[&quoted, "<a@x>"]);
    unfit(&format!("b{quoted}\r\n <é@x <a@x>>").replace("b\"b", "\"bb"));
    fits(&format!("é\r\n <{address}>"), &[e, &format!("<{address}>")]);
    unfit(&format!("é\r\n <b{address}>"));
    fits(&format!("é <a@x>,\r\n {address}"), &[e, "<a@x>,", &address]);
    unfit(&format!("é <a@x>,\r\n b{address}"));
    fits(&format!("<é@x\r\n <{address}>>"), &[&format!("<{address}>")]);
    unfit(&format!("<é@x\r\n <b{address}>>"));
    let greek = "é".repeat(449) + "@x";
    fits(&format!("<{greek}\r\n <a@x>>"), &["<a@x>"]);
    unfit(&format!("<b{greek}\r\n <a@x>>"));
    unfit(&format!("b{greek}"));
    unfit(&format!("{}\r\n <a@x>", "é".repeat(450) + "b"));
}

// Comments

const E: &str = "=?UTF-8?Q?=C3=A9?=";

#[test]
fn comments_of_an_address_field() {
    assert_eq!(
        lines("From: λιμάνι (προβλήτα 3) <pilot@example.net>\r\n"),
        [
            "From:",
            "=?UTF-8?Q?=CE=BB=CE=B9=CE=BC=CE=AC=CE=BD=CE=B9?=",
            "(",
            "=?UTF-8?Q?=CF=80=CF=81=CE=BF=CE=B2=CE=BB=CE=AE=CF=84=CE=B1_3?=",
            ")",
            "<pilot@example.net>"
        ]
    );
    // [1.1]
    fits("A (é) <a@b>", &["A", "(", E, ")", "<a@b>"]);
    fits("g (é): a@b;", &["g", "(", E, ")", ":", "a@b", ";"]);
    fits("a@b (é)", &["a@b", "(", E, ")"]);
    fits("(é) a@b", &["(", E, ")", "a@b"]);
    fits("(é) <a@b> (c)", &["(", E, ")", "<a@b>", "(", "c", ")"]);
    fits("(é) g:;", &["(", E, ")", "g", ":", ";"]);
    fits("a@b (c) , (é) b@c", &["a@b", "(", "c", "),", "(", E, ")", "b@c"]);
    fits(
        "g:(1)é <a@b>(2),(3)<b@c>(4);(5),(6)d@e(7)",
        &[
            "g", ":", "(", "1", ")", E, "<a@b>", "(", "2", "),", "(", "3", ")", "<b@c>", "(", "4", ")", ";", "(", "5",
            "),", "(", "6", ")", "d@e", "(", "7", ")",
        ],
    );
    fits("<é@x <a@b>> (c)", &["<a@b>", "(", "c", ")"]);
    fits("é@x (c)", &["Internationalized Address", "=?UTF-8?Q?=C3=A9=40x?=", "Removed:;", "(", "c", ")"]);
    // [1.2]
    for text in [
        "a (é) b <x@y>", "é <(c)x@y>", "é < (c)x@y>", "é <x@y(c)>", "é <x@y (c)>", "<é@y (c) <x@y>>", "<é@y(c)<x@y>>",
        "<é@y <(c)x@y>>", "<é@y <x@y(c)>>", "<é@y <x@y>(c)>", "é(c)@y", "é@(c)y", "é@y.(c)z", "é.(c)e@y", "é(c).e@y",
    ] {
        unfit(text);
    }
    // [1.3]
    fits("a@b(é)", &["a@b", "(", E, ")"]);
    fits("é(c)<a@b>", &[E, "(", "c", ")", "<a@b>"]);
    fits("(a)(b) é <c@d>", &["(", "a", ")", "(", "b", ")", E, "<c@d>"]);
    fits("(a) \t(é)\tc@d", &["(", "a", ")", "(", E, ")", "c@d"]);
    fits("\"é\"(c)<a@b>", &[E, "(", "c", ")", "<a@b>"]);
    unfit("é(c)b <x@y>");
    // [1.4]
    for text in ["(é)", "(é) ", "(c),é@x", "é@x,(c)", "é@x,(c),a@b", "g:(é),a@b;", "g:a@b,(é);", "(é) <>", "(é):;"]
    {
        unfit(text);
    }
    fits("g:(é);", &["g", ":", "(", E, ")", ";"]);
    fits("g: (é) (c) ;", &["g", ":", "(", E, ")", "(", "c", ")", ";"]);
    // "An unclosed parenthesis encapsulates an address field"
    for text in ["é <a@b> (", "é <a@b> (c", "é <a@b> ((c)", "é <a@b> (c\\)", "(é a@b", "é <a@b> )", "é <a@b> (c))"]
    {
        unfit(text);
    }
}

#[test]
fn runs_of_an_address_field() {
    // [1.5]
    fits("a@b ( é )", &["a@b", "(", "=?UTF-8?Q?_=C3=A9_?=", ")"]);
    fits("é <a@b> ( c )", &[E, "<a@b>", "(", " c ", ")"]);
    fits("é <a@b> ()", &[E, "<a@b>", "(", ")"]);
    fits("a@b (c(é)(()d)\té)", &["a@b", "(", "c", "(", E, ")", "(", "(", ")", "d", ")", "=?UTF-8?Q?=09=C3=A9?=", ")"]);
    // [1.6]
    fits("é <a@b> ( \t )", &[E, "<a@b>", "(", ")"]);
    fits("é <a@b> ( ( ) )", &[E, "<a@b>", "(", "(", ")", ")"]);
    fits("é <a@b> (\\ )", &[E, "<a@b>", "(", "\\ ", ")"]);
    fits("é <a@b> (\\\t)", &[E, "<a@b>", "(", "\\\t", ")"]);
    // [1.9]
    fits("é <a@b> (c), d@e", &[E, "<a@b>", "(", "c", "),", "d@e"]);
    fits("a@b (é), d@e", &["a@b", "(", E, "),", "d@e"]);
    // [1.11]: strings of phrases and addresses keep document 01's grammar, and no comment starts in them.
    unfit("\"\\é\" (c) <a@b>");
    fits("\"(é\" <a@b>", &["=?UTF-8?Q?=28=C3=A9?=", "<a@b>"]);
    fits("\"(\"@b (é)", &["\"(\"@b", "(", E, ")"]);
    fits("a@[(] (é)", &["a@[(]", "(", E, ")"]);
    // [1.17]
    fits("a@b (\"é)", &["a@b", "(", "=?UTF-8?Q?=22=C3=A9?=", ")"]);
    fits("é <a@b> (\") (\")", &[E, "<a@b>", "(", "\"", ")", "(", "\"", ")"]);
    fits("é <a@b> (\\(\\)\\\\)", &[E, "<a@b>", "(", "\\(\\)\\\\", ")"]);
    // [1.18]
    fits("a@b (\\(\\é\\\\\\a\\ )", &["a@b", "(", "=?UTF-8?Q?=28=C3=A9=5Ca_?=", ")"]);
    fits("a@b (é\r\n x)", &["a@b", "(", "=?UTF-8?Q?=C3=A9_x?=", ")"]);
    fits("a@b (é\\\r\n x)", &["a@b", "(", "=?UTF-8?Q?=C3=A9_x?=", ")"]);
    fits("a@b (é\\\r\n\t(x))", &["a@b", "(", "=?UTF-8?Q?=C3=A9=09?=", "(", "x", ")", ")"]);
    fits("é <a@b> (c\r\n d)", &[E, "<a@b>", "(", "c d", ")"]);
    // [1.19]
    fits("é <a@b> (=?UTF-8?Q?a?=)", &[E, "<a@b>", "(", "=?UTF-8?Q?a?=", ")"]);
    fits("a@b (=?é)", &["a@b", "(", "=?UTF-8?Q?=3D=3F=C3=A9?=", ")"]);
    let ascii = "To: a@b (((, (\r\n \"\r\n";
    assert_eq!(out(ascii), ascii);
    // [1.20]
    assert_eq!(
        lines(&format!("To: a@b ({})\r\n", "é".repeat(11)))[3..],
        ["=?UTF-8?B?w6nDqcOpw6nDqcOpw6nDqcOpw6nDqQ==?=", ")"]
    );
}

#[test]
fn copies_beside_comments() {
    // [1.10]
    assert!(!out("To: é (é) <a@b>\r\n").contains("Downgraded-"));
    fits("<é@x <a@b>> (é\r\n \\x)", &["<a@b>", "(", "=?UTF-8?Q?=C3=A9_x?=", ")"]);
    let with_copy = out("To: <é@x <a@b>> (é\r\n \\x)\r\n");
    let (_, copy) = with_copy.split_once("Downgraded-To:").unwrap();
    let (text, _) = read_row(copy.strip_suffix("\r\n").unwrap().as_bytes()).unwrap();
    assert_eq!(text, "<é@x <a@b>> (é \\x)".as_bytes());
}

#[test]
fn runs_of_900() {
    // [1.8], folded since a line has at most 998 bytes.
    let long = "b".repeat(900);
    fits(&format!("é <a@b>\r\n ({long})"), &[E, "<a@b>", "(", &long, ")"]);
    unfit(&format!("é <a@b>\r\n (b{long})"));
    let two = format!("é <a@b>\r\n ({}\r\n b({long}", &long[2..]);
    fits(&format!("{two}))"), &[E, "<a@b>", "(", &format!("{} b", &long[2..]), "(", &long, ")", ")"]);
    unfit(&format!("{two}b))"));
    let escaped = "\\b".repeat(450);
    fits(&format!("é <a@b>\r\n ({escaped})"), &[E, "<a@b>", "(", &escaped, ")"]);
    unfit(&format!("é <a@b>\r\n ({escaped}b)"));
    // The CRLF of a fold does not count, its blank does.
    let folded = format!("{}\r\n b", &long[2..]);
    fits(&format!("é <a@b>\r\n ({folded})"), &[E, "<a@b>", "(", &folded.replace("\r\n", ""), ")"]);
    unfit(&format!("é <a@b>\r\n ({folded}b)"));
    let words = format!("To: a@b\r\n ({}", "é".repeat(450));
    assert!(out(&format!("{words})\r\n")).starts_with("To:\r\n a@b\r\n (\r\n =?"));
    assert!(out(&format!("{words}b)\r\n")).starts_with("Downgraded-To:"));
    // A run that is dropped may be longer.
    fits(&format!("é <a@b>\r\n ({})", " ".repeat(901)), &[E, "<a@b>", "(", ")"]);
    unfit(&format!("é <a@b>\r\n ({}\\ )", " ".repeat(899)));
}
