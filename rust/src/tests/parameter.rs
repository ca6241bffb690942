//! Request [7]: parameters of Content-Type and Content-Disposition; a test of a settled reading tells its number.

use crate::parameter::{check, pieces, room, write_value, Held};
use crate::rfc2231::{read, Read};
use crate::sink::Writer;
use crate::tests::{call, header, numbers, out};

/// The value that is written for this one, of both fields.
fn written(value: &str) -> String {
    let one = out(&format!("Content-Type:{value}\r\n"));
    let other = out(&format!("CONTENT-disposition:{value}\r\n"));
    let one = one.strip_prefix("Content-Type:").unwrap().strip_suffix("\r\n").unwrap();
    assert_eq!(other.strip_prefix("CONTENT-disposition:").unwrap().strip_suffix("\r\n").unwrap(), one);
    assert!(one.split("\r\n").all(|line| line.len() <= 998));
    one.to_string()
}

/// The same for a value that may have longer lines than a header.
fn written_alone(value: &str) -> String {
    assert_eq!(check(value.as_bytes()), Ok(()), "{value:?}");
    let mut buffer = vec![0; 90 * value.len()];
    let mut writer = Writer { buffer: &mut buffer, at: 0 };
    write_value(&mut writer, value.as_bytes());
    let len = writer.at;
    buffer.truncate(len);
    String::from_utf8(buffer).unwrap()
}

fn held(value: &str, why: Held) {
    assert_eq!(check(value.as_bytes()), Err(why), "{value:?}");
    if value.len() < 980 {
        assert_eq!(header(format!("Content-Type:{value}\r\n").as_bytes()), (6, 0), "{value:?}");
    }
}

/// The parameters of an outgoing value.
fn parameters(value: &str) -> Vec<Read> {
    read(value.as_bytes()).unwrap_or_else(|| panic!("{value:?} is not by RFC 2231"))
}

/// The only converted parameter of an outgoing value.
fn converted(value: &str) -> (String, usize) {
    let mut found = parameters(value).into_iter().filter(|read| read.charset.as_deref() == Some("UTF-8"));
    let one = found.next().unwrap_or_else(|| panic!("{value:?} has none"));
    assert_eq!(found.next(), None);
    (String::from_utf8(one.value).unwrap(), one.parts)
}

#[test]
fn values_that_are_converted() {
    assert_eq!(written(" image/png; name=é"), " image/png;\r\n name*=UTF-8''%C3%A9");
    assert_eq!(written(" image/png; name=\"é\""), " image/png;\r\n name*=UTF-8''%C3%A9");
    assert_eq!(written("a;n=é;b=c"), "a;\r\n n*=UTF-8''%C3%A9;\r\n b=c");
    assert_eq!(written("a;b=c;n=é"), "a;b=c;\r\n n*=UTF-8''%C3%A9");
    assert_eq!(written(";n=é"), ";\r\n n*=UTF-8''%C3%A9");
    // "attribute characters bare": of RFC 2231, [7.10]
    let bare = "!#$&+-.0123456789ABCDEFGHIJKLMNOPQRSTUVWXYZ^_`abcdefghijklmnopqrstuvwxyz{|}~";
    for b in 1..128u8 {
        let value = match b {
            b'\r' | b'\n' => continue,
            b'"' | b'\\' => format!("\\{}", b as char),
            _ => (b as char).to_string(),
        };
        let spelled = if bare.contains(b as char) { (b as char).to_string() } else { format!("%{b:02X}") };
        assert_eq!(written(&format!("a;n=\"é{value}\"")), format!("a;\r\n n*=UTF-8''%C3%A9{spelled}"));
    }
    // [7.6]: "A value is converted or left by its own bytes"
    assert_eq!(written("a;b=\"c\\d\" ;n=é;e=\"*'%\""), "a;b=\"c\\d\" ;\r\n n*=UTF-8''%C3%A9;\r\n e=\"*'%\"");
    // "Names [..] are written as they came"
    assert_eq!(written("a;NaMe=é"), "a;\r\n NaMe*=UTF-8''%C3%A9");
    // A run may hold what a token may.
    assert_eq!(written("a;n=*'%é"), "a;\r\n n*=UTF-8''%2A%27%25%C3%A9");
}

#[test]
fn quoting_escapes_and_folds() {
    let text = |value: &str| converted(&written(&format!("a;n={value};b=c"))).0;
    assert_eq!(text("\"é\\\"\\\\\\a\\é\""), "é\"\\aé");
    // [7.3]: a fold's blank is of the value, blanks at the ends too, and a backslash before a fold escapes that blank.
    assert_eq!(text("\"é\r\n x\""), "é x");
    assert_eq!(text("\"é\r\n\tx\""), "é\tx");
    assert_eq!(text("\"\r\n é \t\""), " é \t");
    assert_eq!(text("\"é\\\r\n \""), "é ");
    assert_eq!(text("\"é\\\\\r\n \\\r\n\t\\\"\""), "é\\ \t\"");
    assert_eq!(text("\";é(\""), ";é(");
    assert_eq!(text("\"\u{1}\u{7f}é\""), "\u{1}\u{7f}é");
    assert_eq!(text("éa"), "éa");
}

#[test]
fn lines_of_converted_pieces() {
    // "white space and folds before it go": [7.5] those between the piece and the `;` or comment before it.
    assert_eq!(written("a ; \t\r\n  n=é"), "a ;\r\n n*=UTF-8''%C3%A9");
    assert_eq!(written("a;\r\n (c)\r\n n=é"), "a;\r\n (c)\r\n n*=UTF-8''%C3%A9");
    assert_eq!(written("a;(c)n=é"), "a;(c)\r\n n*=UTF-8''%C3%A9");
    assert_eq!(written("a; (c) (d)n=é"), "a; (c) (d)\r\n n*=UTF-8''%C3%A9");
    // Its `;`, and what follows on a new line.
    assert_eq!(written("a;n=é ; b=c"), "a;\r\n n*=UTF-8''%C3%A9;\r\n b=c");
    assert_eq!(written("a;n=é\r\n\t;\r\n b=c"), "a;\r\n n*=UTF-8''%C3%A9;\r\n b=c");
    assert_eq!(written("a;n=é junk"), "a;\r\n n*=UTF-8''%C3%A9\r\n junk");
    assert_eq!(written("a;n=é\r\n junk; b"), "a;\r\n n*=UTF-8''%C3%A9\r\n junk; b");
    assert_eq!(written("a;n=é;;b=c"), "a;\r\n n*=UTF-8''%C3%A9;\r\n ;b=c");
    assert_eq!(written("a;n=é; ;"), "a;\r\n n*=UTF-8''%C3%A9;\r\n ;");
    // A comment between keeps the `;` where it is.
    assert_eq!(written("a;n=é (c) ; x"), "a;\r\n n*=UTF-8''%C3%A9\r\n (c) ; x");
    assert_eq!(written("a;n=é(c);x"), "a;\r\n n*=UTF-8''%C3%A9\r\n (c);x");
    assert_eq!(written("a;n=é; (c) x"), "a;\r\n n*=UTF-8''%C3%A9;\r\n (c) x");
    // If what follows is another converted piece, its own line is it.
    assert_eq!(written("a;n=é;m=é"), "a;\r\n n*=UTF-8''%C3%A9;\r\n m*=UTF-8''%C3%A9");
    assert_eq!(written("a;n=é ; \r\n m=é ;"), "a;\r\n n*=UTF-8''%C3%A9;\r\n m*=UTF-8''%C3%A9;");
    assert_eq!(written("a;n=é;(c)m=é"), "a;\r\n n*=UTF-8''%C3%A9;\r\n (c)\r\n m*=UTF-8''%C3%A9");
    assert_eq!(written("a;n=é;b=c;m=é"), "a;\r\n n*=UTF-8''%C3%A9;\r\n b=c;\r\n m*=UTF-8''%C3%A9");
    assert_eq!(written("a;n=é;b ; m=é"), "a;\r\n n*=UTF-8''%C3%A9;\r\n b ;\r\n m*=UTF-8''%C3%A9");
    // "unless nothing is left"
    for end in ["", " ", "\r\n ", "\t\r\n \r\n\t"] {
        assert_eq!(written(&format!("a;n=é{end}")), "a;\r\n n*=UTF-8''%C3%A9");
        assert_eq!(written(&format!("a;n=é{end};{end}")), "a;\r\n n*=UTF-8''%C3%A9;");
    }
    // All else byte for byte.
    assert_eq!(written(" \ta \"b\";\r\n\t c = d; n=é"), " \ta \"b\";\r\n\t c = d;\r\n n*=UTF-8''%C3%A9");
}

#[test]
fn comments_beside_parameters() {
    let word = "(\r\n =?UTF-8?Q?=C3=A9?=\r\n )";
    assert_eq!(written("a(é);b=c"), format!("a{word};b=c"));
    assert_eq!(written("(é)a;(é)n=é(é);b(é)"), {
        format!("{word}a;{word}\r\n n*=UTF-8''%C3%A9\r\n {word};b{word}")
    });
    assert_eq!(written("a;n=é; (é) m=é"), format!("a;\r\n n*=UTF-8''%C3%A9;\r\n {word}\r\n m*=UTF-8''%C3%A9"));
    // A `;` of a comment begins none, nor of a string.
    assert_eq!(written("a(;n=é)"), "a(\r\n =?UTF-8?Q?=3Bn=3D=C3=A9?=\r\n )");
    held("a\";n=é\"", Held::Elsewhere);
    held("a\";n=é", Held::Elsewhere);
    // [7.1]: outside both a backslash escapes nothing.
    assert_eq!(written("a\\;n=é"), "a\\;\r\n n*=UTF-8''%C3%A9");
    assert_eq!(written("a\\(é);n=é"), format!("a\\{word};\r\n n*=UTF-8''%C3%A9"));
    held("a\\\";n=é", Held::Elsewhere);
    // After an unclosed parenthesis `;` still begins parameters.
    assert_eq!(written("a(b;n=é"), "a(b;\r\n n*=UTF-8''%C3%A9");
    assert_eq!(written("a(b;n=\"é\" (c"), "a(b;\r\n n*=UTF-8''%C3%A9\r\n (c");
    held("a(b(é)", Held::Elsewhere);
    held("a(b;n=é(c)", Held::Elsewhere);
    held("a(b;(c)n=é", Held::Elsewhere);
    held("a;n=é(", Held::Elsewhere);
    held("a;(n=é", Held::Elsewhere);
    held("a;(n=é;m=é", Held::Elsewhere);
    assert_eq!(written("a(é)(;n=é"), format!("a{word}(;\r\n n*=UTF-8''%C3%A9"));
}

#[test]
fn what_is_no_parameter() {
    for value in [
        "é", "a;é", "a;é=b", "a;b=c;é", "n=é", "a n=é", "a;b n=é", "a;n =é", "a;n= é", "a;n=\r\n é", "a;n\r\n =é",
        "a;n(c)=é", "a;n=(c)é", "a;=é", "a;n==é", "a;n=é=", "a;n=é\"b\"", "a;n=\"é\"b", "a;n=\"é", "a;n=\"é\\\"",
        "a;n=b/é", "a;n=é/b", "a;n=é,", "a;n=é\\", "a;n=é\u{1}", "a;n=é\u{7f}", "a;n\u{1}=é", "a;n/m=é", "a;\"n\"=é",
        "a;n=b é", "a;n=\"b\" \"é\"", "a;n=é b é", "a;b=c n=é", "a;n=<é>", "a,n=é", "a;n=é)", "a;)n=é", "a;[n=é",
    ] {
        held(value, Held::Elsewhere);
    }
    // [7.2]: `p=;` is no parameter, so that its name is shared with none.
    assert_eq!(written("a;n=;n=é"), "a;n=;\r\n n*=UTF-8''%C3%A9");
    assert_eq!(written("a;n*=;n=é"), "a;n*=;\r\n n*=UTF-8''%C3%A9");
    assert_eq!(written("a;n =b;n=é"), "a;n =b;\r\n n*=UTF-8''%C3%A9");
    assert_eq!(written("a;n=\"\";m=é"), "a;n=\"\";\r\n m*=UTF-8''%C3%A9");
    // [7.4]: what a parameter is does not depend on what comes later.
    held("a;n=é b=é", Held::Elsewhere);
}

#[test]
fn names_that_hold() {
    // [7.7]: `*` in any parameter's name, ASCII or not, also when non-ASCII stands in a comment only.
    held("a;n*=é", Held::Star);
    held("a;n*=UTF-8''b;m=é", Held::Star);
    held("a;m=é;n*0=b", Held::Star);
    held("a;*=b;m=é", Held::Star);
    held("a(é);n*=b", Held::Star);
    held("a(b(é);n=é;*n=b", Held::Elsewhere);
    held("a(b;n=é;*n=b", Held::Star);
    // "shared by two parameters (any case)"
    held("a;n=é;n=b", Held::Shared);
    held("a;n=b;N=é", Held::Shared);
    held("a;n=b;x=y;n=c;m=é", Held::Shared);
    held("a;NAme=b;naME=\"c\";(é)", Held::Shared);
    held("a(b;n=é;m=c;n=d", Held::Shared);
    // Only `*` is barred from names.
    assert_eq!(written("a;'%=é;n!=b"), "a;\r\n '%*=UTF-8''%C3%A9;\r\n n!=b");
    // An ASCII field is copied, whatever its parameters.
    for value in ["a;n*=b", "a;n=b;n=c", "a;n*0=b;n*0=c", "a(;n"] {
        assert_eq!(written(value), value);
    }
    // Other letters are other names.
    assert_eq!(written("a;n[=b;n{=é").matches("UTF-8").count(), 1);
}

#[test]
fn rooms_of_pieces() {
    // [7.9]: "65 - L characters alone, 63 - L in part 0, 70 - L in parts 1 to 9, 69 - L in 10 to 99, and so on"
    for len in 1..60 {
        assert_eq!(room(len, None), 65 - len);
        assert_eq!(room(len, Some(0)), 63 - len);
        assert!((1..10).all(|number| room(len, Some(number)) == 70 - len));
        assert!((10..100).all(|number| room(len, Some(number)) == 69 - len));
        assert!((100..1000).all(|number| room(len, Some(number)) == 68 - len));
    }
    assert_eq!((room(64, None), room(65, None), room(100, Some(1))), (1, 0, 0));
}

/// The lines of a single parameter with a name of so many bytes.
fn value_lines(name_len: usize, text: &str) -> Vec<String> {
    let name = "n".repeat(name_len);
    let value = written_alone(&format!("a;{name}=\"{text}\""));
    let lines: Vec<String> = value.split("\r\n").skip(1).map(str::to_string).collect();
    assert!(lines.iter().all(|line| line.starts_with(&format!(" {name}*"))));
    assert_eq!(converted(&value), (text.to_string(), lines.len()));
    lines
}

#[test]
fn borders_of_lines() {
    // One line of 75 and a `;` that is counted, and one more character.
    for len in [1, 4, 8, 40] {
        let fits = format!("é{}", "x".repeat(65 - len - 6));
        assert_eq!(value_lines(len, &fits).iter().map(String::len).collect::<Vec<_>>(), [75]);
        let over = fits.clone() + "x";
        let lines = value_lines(len, &over);
        assert_eq!(lines.iter().map(String::len).collect::<Vec<_>>(), [76, 1 + len + 5 + 2]);
        assert!(lines[0].ends_with(';'));
    }
    // A character that does not fit goes whole to the next part.
    let lines = value_lines(4, &format!("{}é", "x".repeat(57)));
    assert_eq!(lines[0], format!(" nnnn*0*=UTF-8''{};", "x".repeat(57)));
    assert_eq!(lines[1], " nnnn*1*=%C3%A9");
    // 10 and 100 parts: characters of one byte fill each line.
    let all = |parts: usize, len: usize| (0..parts).map(|number| room(len, Some(number))).sum::<usize>();
    for (len, parts) in [(8, 10), (8, 11), (4, 9), (50, 99), (50, 100), (50, 101), (56, 150)] {
        let text = format!("{}é", "x".repeat(all(parts, len) - 6));
        let lines = value_lines(len, &text);
        assert_eq!(lines.len(), parts, "{len}");
        assert!(lines[..parts - 1].iter().all(|line| line.len() == 76), "{len}");
        assert_eq!(lines[parts - 1].len(), 75);
        assert_eq!(value_lines(len, &(text + "x")).len(), parts + 1);
    }
}

#[test]
fn no_room_for_a_character() {
    let value = |len: usize, text: &str| format!("a;{}={text}", "n".repeat(len));
    // Alone, or not at all: an é takes 6.
    assert_eq!(written(&value(59, "é")).len(), 2 + 2 + 75);
    held(&value(60, "é"), Held::Room);
    assert_eq!(written(&value(56, "漢")).len(), 2 + 2 + 75);
    held(&value(57, "漢"), Held::Room);
    assert_eq!(written(&value(53, "😀")).len(), 2 + 2 + 75);
    held(&value(54, "😀"), Held::Room);
    // [7.8]: no part is empty, and it is the value at hand that counts. Part 0 has 63 - L.
    assert_eq!(converted(&written(&value(57, "éé"))), ("éé".into(), 2));
    held(&value(58, "éé"), Held::Room);
    assert_eq!(converted(&written(&value(58, "aéé"))).1, 2);
    assert_eq!(converted(&written(&value(58, "aaaaaaé漢"))).1, 3);
    // Part 1 has 70 - L, part 10 has 69 - L, part 100 has 68 - L.
    assert_eq!(converted(&written(&value(62, "aaaé"))).1, 2);
    held(&value(62, "aaaaéa漢"), Held::Room);
    held(&value(62, "a漢"), Held::Room);
    assert_eq!(converted(&written(&value(61, "a漢"))).1, 2);
    held(&value(59, "a😀"), Held::Room);
    assert_eq!(converted(&written(&value(58, "a😀"))).1, 2);
    held(&value(63, "é"), Held::Room);
    held(&value(63, "aé"), Held::Room);
    let many = |len: usize, count: usize, last: &str| value(len, &("a".repeat(count) + last));
    let all = |parts: usize, len: usize| (0..parts).map(|number| room(len, Some(number))).sum::<usize>();
    for (len, parts, last) in [(61, 10, "漢"), (58, 10, "😀"), (60, 100, "漢"), (57, 100, "😀")] {
        let before = room(len, Some(parts - 1));
        let last_size = 3 * last.len();
        assert!(before >= last_size && room(len, Some(parts)) < last_size, "{len} {parts}");
        held(&many(len, all(parts, len), last), Held::Room);
        let fits = many(len, all(parts - 1, len), last);
        assert_eq!(converted(&written_alone(&fits)).1, parts);
    }
    // An ASCII parameter with a long name holds nothing.
    let long = "n".repeat(200);
    assert_eq!(written(&format!("a;{long}=b;m=é")), format!("a;{long}=b;\r\n m*=UTF-8''%C3%A9"));
    held(&format!("a;{long}=é"), Held::Room);
}

#[test]
fn lines_of_998_stay() {
    let text = "é".repeat(480);
    let value = format!("a;n=\"{text}\";m=\"{text}\";b={}", "c".repeat(900));
    let header = format!("Content-Type:\r\n a;\r\n n=\"{text}\"\r\n ;m={text}\r\n ;b={}\r\n", "c".repeat(900));
    assert!(value.len() > 998);
    let got = out(&header);
    assert!(got.split("\r\n").all(|line| line.len() <= 998));
    let read = parameters(got.strip_prefix("Content-Type:").unwrap().strip_suffix("\r\n").unwrap());
    assert_eq!(read.iter().map(|read| read.value.len()).collect::<Vec<_>>(), [900, 960, 960]);
}

#[test]
fn largest_output() {
    // [7.11]: "A header of 32,768 bytes can give 2,426,570, 74 times the input."
    let header = crate::worst::most_parts();
    assert_eq!(header.len(), 32_768);
    let (answer, _, got) = call(b"MAIL FROM:<a@x>\r\nRCPT TO:<b@y>\r\n", &header);
    assert_eq!((answer.number, answer.header_len), (0, 2_426_955));
    let value = got.strip_prefix("Content-Type:").unwrap().strip_suffix("\r\n").unwrap();
    assert_eq!(converted(value).1, value.matches("\r\n").count());
}

/// The fewest parts over all numberings from zero, whole characters in each, by search; none where there is none.
fn fewest_parts(name_len: usize, text: &str) -> Option<usize> {
    let size = |c: char| if c.is_ascii_alphanumeric() { 1 } else { 3 * c.len_utf8() };
    let sizes: Vec<usize> = text.chars().map(size).collect();
    // Where a numbering of so many parts may have come to: every way, parts that hold nothing too.
    let mut reached = vec![false; sizes.len() + 1];
    reached[0] = true;
    for number in 0..=sizes.len() {
        let digits = number.to_string().len();
        let used =
            " ".len() + name_len + "**=".len() + digits + if number == 0 { "UTF-8''".len() } else { 0 } + ";".len();
        let mut next = reached.clone();
        for start in (0..sizes.len()).filter(|&start| reached[start]) {
            let mut line = used;
            for end in start + 1..=sizes.len() {
                line += sizes[end - 1];
                next[end] |= line <= 76;
                if line > 76 {
                    break;
                }
            }
        }
        if next[sizes.len()] {
            return Some(number + 1);
        }
        if next == reached && number > 200 {
            return None;
        }
        reached = next;
    }
    None
}

#[test]
fn no_numbering_has_fewer_parts() {
    let characters = ['a', 'b', ' ', '(', 'é', 'ß', '漢', '字', '😀'];
    let mut next = numbers(7);
    let (mut taken, mut refused, mut tens) = (0, 0, 0);
    for round in 0..6000 {
        let name_len = if round % 2 == 0 { 40 + next(30) } else { 1 + next(62) };
        let kinds = 1 + next(characters.len());
        let len = 1 + if round % 10 == 0 { next(600) } else { next(90) };
        let mut text: String = (0..len).map(|_| characters[next(kinds)]).collect();
        text.push(characters[4 + next(5)]);
        let found = pieces(name_len, text.as_bytes());
        let fewest = fewest_parts(name_len, &text);
        match &found {
            None => refused += 1,
            Some(pieces) if pieces.len() == 1 => taken += 1,
            Some(pieces) => {
                assert_eq!(Some(pieces.len()), fewest, "{name_len} {text}");
                tens += (pieces.len() > 10) as usize;
                taken += 1;
            }
        }
        // Each that is written reads back.
        if found.is_some() && name_len < 60 {
            let value = format!("a;{}=\"{text}\"", "n".repeat(name_len));
            assert_eq!(converted(&written_alone(&value)).0, text);
        }
    }
    assert!(taken > 1000 && refused > 500 && tens > 100, "{taken} {refused} {tens}");
}
