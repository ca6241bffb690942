//! Tests: rows of encoded words, requests [5] and [10].

use super::*;

#[test]
fn spelling_of_every_byte() {
    for b in (1..=127u8).filter(|&b| b != b'\r' && b != b'\n') {
        let want = match b {
            b' ' => "_".to_string(),
            b'!' | b'*' | b'+' | b'-' | b'/' => (b as char).to_string(),
            _ if b.is_ascii_alphanumeric() => (b as char).to_string(),
            _ => format!("={b:02X}"),
        };
        let text = format!("é{}", b as char);
        assert_eq!(subject_words(&text), [format!("=?UTF-8?Q?=C3=A9{want}?=")]);
    }
}

// The name's own line

/// The rooms between the brackets of the words that are written for a field of this name.
fn word_sizes(name: &str, written_name: &str, text: &str) -> Vec<usize> {
    field_words(name, written_name, text).iter().map(|word| word.len() - 12).collect()
}

#[test]
fn first_word_beside_the_name() {
    // [5.1]: 62 less the name's length, then 63.
    assert_eq!(word_sizes("Subject", "Subject", &("é".to_string() + &"x".repeat(300)))[..3], [55, 63, 63]);
    assert_eq!(word_sizes("cOMMENTS", "cOMMENTS", &("é".to_string() + &"x".repeat(300)))[..3], [54, 63, 63]);
    assert_eq!(word_sizes("Content-Description", "Content-Description", &("é".to_string() + &"x".repeat(99)))[0], 43);
    // [5.4]: the name counts with its `Downgraded-`; one that came in is another name.
    assert_eq!(word_sizes("A", "Downgraded-A", &("é".to_string() + &"x".repeat(300)))[..2], [50, 63]);
    assert_eq!(out("Downgraded-A: é\r\n"), "Downgraded-Downgraded-A: =?UTF-8?Q?=C3=A9?=\r\n");
    assert_eq!(out("Downgraded-A: e\r\n"), "Downgraded-A: e\r\n");
    // The first line is full to the last of its 76 characters, or has one more.
    let full = out(&format!("Subject: é{}\r\n", "x".repeat(49)));
    assert_eq!((full.len(), full.matches("=?UTF-8?Q?").count()), (78, 1));
    let over = out(&format!("Subject: é{}\r\n", "x".repeat(50)));
    assert_eq!(over, full.replace("?=\r\n", "?=\r\n =?UTF-8?Q?x?=\r\n"));
    // A first character of each size, names up to where it fits no more, and those up to which it fits by Q.
    for (first, longest, longest_by_q) in [("x", 50, 50), (",", 48, 48), ("é", 47, 45), ("漢", 47, 42), ("😀", 43, 39)]
    {
        for len in 1..=76 {
            let name = "n".repeat(len);
            // No more than the first character fits.
            let text = format!("{first}{}", "😀".repeat(9));
            let field = out(&format!("{name}: {text}\r\n"));
            // [5.2]: no space after the colon. [5.3]: one character goes there, also if no line is saved.
            let beside = field.starts_with(&format!("Downgraded-{name}: =?UTF-8?"));
            let below = field.starts_with(&format!("Downgraded-{name}:\r\n =?UTF-8?"));
            assert_eq!((beside, below), (len <= longest, len > longest), "{first} {len}");
            // [10.4]: "by neither encoding"
            if len > longest_by_q && len <= longest {
                assert!(field.starts_with(&format!("Downgraded-{name}: =?UTF-8?B?")), "{first} {len}");
            }
            field_words(&name, &format!("Downgraded-{name}"), &text);
        }
    }
    assert_eq!(
        out(&format!("{}: xé\r\n", "n".repeat(50))),
        format!("Downgraded-{}: =?UTF-8?Q?x?=\r\n =?UTF-8?Q?=C3=A9?=\r\n", "n".repeat(50))
    );
    // Folds do not count.
    assert_eq!(out("Subject:\r\n \r\n é\r\n x\r\n"), "Subject: =?UTF-8?Q?=C3=A9_x?=\r\n");
}

#[test]
fn rows_of_address_fields_begin_on_the_next_line() {
    // [5.5]
    assert_eq!(
        out("To: é <a@x>, ó@x\r\n"),
        "To:\r\n =?UTF-8?Q?=C3=A9?=\r\n <a@x>,\r\n Internationalized Address\r\n =?UTF-8?Q?=C3=B3=40x?=\r\n \
         Removed:;\r\nDowngraded-To: =?UTF-8?Q?=C3=A9_=3Ca=40x=3E=2C_=C3=B3=40x?=\r\n"
    );
    assert_eq!(row_words(&"x".repeat(64)).len(), 2);
}

/// For each character how many characters Q spells it with, and how many bytes it has.
fn character_sizes(text: &str) -> Vec<(usize, usize)> {
    let q = |c: char| match c {
        ' ' | '!' | '*' | '+' | '-' | '/' => 1,
        _ if c.is_ascii_alphanumeric() => 1,
        _ => 3 * c.len_utf8(),
    };
    text.chars().map(|c| (q(c), c.len_utf8())).collect()
}

/// Where a word that begins with the first of these characters may end in this room, in Q or in B: every way.
fn word_ends(sizes: &[(usize, usize)], room: usize) -> Vec<usize> {
    let (mut q, mut bytes, mut ends) = (0, 0, Vec::new());
    for (at, size) in sizes.iter().enumerate() {
        q += size.0;
        bytes += size.1;
        if q > room && bytes.div_ceil(3) * 4 > room {
            break;
        }
        ends.push(at + 1);
    }
    ends
}

/// The fewest words from each character on, each on a line of its own, over all rows of Q and B words.
fn fewest_words(sizes: &[(usize, usize)]) -> Vec<usize> {
    let mut words = vec![0; sizes.len() + 1];
    for start in (0..sizes.len()).rev() {
        words[start] = word_ends(&sizes[start..], 63).iter().map(|end| 1 + words[start + end]).min().unwrap();
    }
    words
}

/// The fewest lines of a field, the name's line with them: the first word on it or on the next line.
fn fewest_lines(name_len: usize, sizes: &[(usize, usize)], words: &[usize]) -> usize {
    let room = 62usize.saturating_sub(name_len);
    word_ends(sizes, room).iter().map(|&end| 1 + words[end]).chain([1 + words[0]]).min().unwrap()
}

/// A text of one script, now and then with a character of another.
fn script_text(next: &mut impl FnMut(usize) -> usize, script: usize, len: usize) -> String {
    let scripts = [
        "αβγδεζηθικλμνξοπρστυφχψωάέήί ΑΒΓΔ ,.",
        "абвгдежзийклмнопрстуфхцчшщъыьэюя АБВГ ,.",
        "日本語気象庁発表海上風警報あいうえおカキクケコ、。",
        "ابتثجحخدذرزسشصضطظعغفقكلمنهوي ،.",
        "😀😁🌊⛵🚢🌬️🌀 a",
        "Strømvarsel før kysten, kuling på Øst-Sjælland: âéîõü ",
        "Gale warning for the coast, wind north-west 8 = 17.2 m/s (é) until 18:00 _?",
    ];
    let pools: Vec<Vec<char>> = scripts.iter().map(|script| script.chars().collect()).collect();
    let mut pool = script % pools.len();
    let mut text = String::new();
    for _ in 0..len {
        // A script of its own, or changing now and then.
        if script >= pools.len() && next(20) == 0 {
            pool = next(pools.len());
        }
        text.push(pools[pool][next(pools[pool].len())]);
    }
    text
}

/// How many words a row has that must read back as the text, whole characters in each, on lines of at most 76.
fn count_words(row: &str, before: usize, text: &str) -> usize {
    let (read, words) = read_row(row.as_bytes()).unwrap();
    assert_eq!(read, text.as_bytes());
    assert!(words.iter().all(|word| !word.is_empty() && std::str::from_utf8(word).is_ok()));
    // Each word after one space, on a line of its own or after the colon.
    for (at, line) in row.split("\r\n").enumerate() {
        let before = if at == 0 { before } else { 0 };
        let word = line.strip_prefix(" =?UTF-8?").is_some_and(|word| !word.contains(' ') && before + line.len() <= 76);
        assert!(word || (at == 0 && line.is_empty()), "{line:?}");
    }
    words.len()
}

fn written(write: impl Fn(&mut Writer)) -> String {
    let mut buffer = vec![0; 20_000];
    let mut writer = Writer { buffer: &mut buffer, at: 0 };
    write(&mut writer);
    let len = writer.at;
    buffer.truncate(len);
    String::from_utf8(buffer).unwrap()
}

#[test]
fn no_row_of_either_encoding_has_fewer_words() {
    let mut next = numbers(1);
    for round in 0..6000 {
        let len = if round % 20 == 0 { 20 + next(1981) } else { 20 + next(180) };
        let text = script_text(&mut next, round % 14, len);
        let sizes = character_sizes(&text);
        let words = fewest_words(&sizes);
        let own_lines = written(|writer| row(writer, text.as_bytes()));
        assert!(own_lines.starts_with("\r\n "));
        assert_eq!(count_words(&own_lines, 0, &text), words[0], "{text}");
        // [10.7]: "lines" has the name's line in it.
        for name_len in [1 + next(87), 7, 40 + next(22)] {
            let field = written(|writer| row_after_name(writer, name_len, text.as_bytes()));
            let words_written = count_words(&field, name_len + 1, &text);
            let lines = words_written + field.starts_with("\r\n") as usize;
            assert_eq!(lines, fewest_lines(name_len, &sizes, &words), "{name_len} {text}");
            // [5.3]: a character that fits goes there.
            assert_eq!(field.starts_with(' '), !word_ends(&sizes, 62usize.saturating_sub(name_len)).is_empty());
        }
    }
}

#[test]
fn fields_of_the_call_have_the_fewest_lines() {
    // [5.6]: the name's line counts.
    let characters = ["x", " ", ",", "é", "漢", "😀"];
    let mut next = numbers(2);
    for _ in 0..3000 {
        let name = "n".repeat(1 + next(60));
        let mut text = "x".repeat(next(2));
        for _ in 0..next(80) {
            text += characters[next(6)];
        }
        text += "é";
        let text = text.trim_start();
        let lines = out(&format!("{name}: {text}\r\n")).matches("\r\n").count();
        let sizes = character_sizes(text);
        assert_eq!(lines, fewest_lines(11 + name.len(), &sizes, &fewest_words(&sizes)), "{name} {text}");
    }
}

#[test]
fn choice_of_the_encoding() {
    let word = |text: &str, room: usize| {
        let word = first_word(text.as_bytes(), room);
        (word.encoding, text[..word.len].chars().count(), word.size)
    };
    // [10.1]: the rooms of both, on either side of each limit.
    for room in 0..=63 {
        for (character, len, spelled) in [("a", 1, 1), (",", 1, 3), ("é", 2, 6), ("漢", 3, 9), ("😀", 4, 12)] {
            let text = character.repeat(100);
            let (q, b) = (room / spelled, 3 * (room / 4) / len);
            let want = if b > q { (Encoding::B, b, base64_size(b * len)) } else { (Encoding::Q, q, q * spelled) };
            assert_eq!(word(&text, room), want, "{character} {room}");
        }
    }
    assert_eq!(word(&"é".repeat(100), 63), (Encoding::B, 22, 60));
    // [10.4]
    for room in [4, 5] {
        assert_eq!(word("éé", room), (Encoding::B, 1, 4));
        assert_eq!(word("日é", room), (Encoding::B, 1, 4));
        assert_eq!(word("😀", room), (Encoding::Q, 0, 0));
    }
    for room in 8..12 {
        assert_eq!(word("😀a", room), (Encoding::B, 2, 8));
        assert_eq!(word("😀é", room), (Encoding::B, 2, 8));
        assert_eq!(word("😀😀", room), (Encoding::B, 1, 8));
    }
    // [10.2], [10.3]: where all that is left fits either way, Q, though it is longer; of what is left, not of the room.
    assert_eq!(word("é", 63), (Encoding::Q, 1, 6));
    assert_eq!(word(&"é".repeat(10), 63), (Encoding::Q, 10, 60));
    assert_eq!(word(&"é".repeat(10), 59), (Encoding::B, 10, 28));
    assert_eq!(word(&("é".repeat(10) + "abc"), 63), (Encoding::Q, 13, 63));
    assert_eq!(word(&("é".repeat(10) + "abcd"), 63), (Encoding::B, 14, 32));
    // Q though the later words grow, when both hold the same number now: 42 letters and one of three bytes.
    let equal = "a".repeat(42) + "日" + &"日".repeat(20);
    assert_eq!(word(&equal, 63), (Encoding::Q, 44, 60));
    let equal = "a".repeat(44) + "ééé";
    assert_eq!(word(&equal, 63), (Encoding::Q, 47, 62));
    let equal = "a".repeat(43) + "日日日";
    assert_eq!(word(&equal, 62), (Encoding::Q, 45, 61));
    let equal = "a".repeat(38) + "日日日日";
    assert_eq!(word(&equal, 63), (Encoding::Q, 40, 56));
    // The closing remark of the readings: mixed 3, by Q 6, by B 4.
    let mixed = "a".repeat(60) + &"日".repeat(30);
    let words = row_words(&mixed);
    assert_eq!(words.len(), 3);
    assert_eq!(words.iter().map(|word| &word[8..9]).collect::<Vec<_>>(), ["Q", "B", "B"]);
    assert_eq!(cut_by_q(&mixed).len(), 6);
    // Both kinds in any order.
    let words = row_words(&("日".repeat(15) + &"a".repeat(63) + &"日".repeat(8)));
    assert_eq!(words.iter().map(|word| &word[8..9]).collect::<Vec<_>>(), ["B", "Q", "B"]);
}

#[test]
fn both_encodings_in_every_row() {
    // [10.5]
    let long = "ж".repeat(12);
    let b = "=?UTF-8?B?0LbQttC20LbQttC20LbQttC20LbQttC2?=";
    assert_eq!(out(&format!("Subject: {long}\r\n")), format!("Subject: {b}\r\n"));
    assert_eq!(out(&format!("X: {long}\r\n")), format!("Downgraded-X: {b}\r\n"));
    assert_eq!(out(&format!("Date: ({long})\r\n")), format!("Date: (\r\n {b}\r\n )\r\n"));
    assert_eq!(out(&format!("Received: ({long})\r\n")), format!("Received: (\r\n {b}\r\n )\r\n"));
    fits(&format!("{long} <a@x>"), &[b, "<a@x>"]);
    fits(
        &format!("\"{}\\{}\" <a@x>", &long[..10], "\\".to_string() + &long[10..]),
        &["=?UTF-8?B?0LbQttC20LbQtlzQttC20LbQttC20LbQtg==?=", "<a@x>"],
    );
    fits(&format!("a@x ({long})"), &["a@x", "(", b, ")"]);
    fits(
        &format!("a@x (\\{}\r\n {})", &long[..12], &long[12..]),
        &["a@x", "(", "=?UTF-8?B?0LbQttC20LbQttC2INC20LbQttC20LbQtg==?=", ")"],
    );
    let removed = format!("{}@x", &long[..22]);
    let b_at_x = "=?UTF-8?B?0LbQttC20LbQttC20LbQttC20LbQtkB4?=";
    let words = "Internationalized Address";
    fits(&removed, &[words, b_at_x, "Removed:;"]);
    fits(&format!("g: {removed} ;"), &["g", words, b_at_x, "Removed:;"]);
    // The copy, on the name's line.
    assert_eq!(lines(&format!("To: {removed}\r\n")).last().unwrap(), &format!("Downgraded-To: {b_at_x}"));
    // The two first fields.
    let path = format!("{}@x", &long[..18]);
    let (_, _, header) =
        call(format!("MAIL FROM:<{path}> ALT-ADDRESS=a@x\r\nRCPT TO:<{path}> ALT-ADDRESS=a@x\r\n").as_bytes(), b"");
    let text = format!("<{path} <a@x>>");
    for (line, name) in header.split_terminator("\r\n").zip(["Downgraded-Mail-From:", "Downgraded-Rcpt-To:"]) {
        let row = line.strip_prefix(name).unwrap();
        assert!(row.starts_with(" =?UTF-8?B?"));
        assert_eq!(read_row(row.as_bytes()).unwrap().0, text.as_bytes());
    }
    // [10.10]
    assert_eq!(subject_words("=?UTF-8?B?w6k=?= é"), ["=?UTF-8?Q?=3D=3FUTF-8=3FB=3Fw6k=3D=3F=3D_=C3=A9?="]);
    let ascii = "Subject: =?UTF-8?B?w6k=?=\r\nTo: =?UTF-8?B?w6k=?= <a@b>\r\n";
    assert_eq!(out(ascii), ascii);
    // Document 01's removed address stays Q.
    assert!(out("To: é@example.org\r\n").contains("\r\n =?UTF-8?Q?=C3=A9=40example=2Eorg?=\r\n"));
}

#[test]
fn reading_of_rows() {
    let read =
        |row: &str| read_row(row.as_bytes()).map(|(text, words)| (String::from_utf8(text).unwrap(), words.len()));
    let good = |row: &str, text: &str, words: usize| assert_eq!(read(row), Some((text.into(), words)), "{row}");
    good("", "", 0);
    good(" \r\n  ", "", 0);
    good(" =?UTF-8?Q?=C3=a9_a?=", "é a", 1);
    good("=?UTF-8?B?w6k=?=\r\n =?UTF-8?Q?a?= =?UTF-8?B?YQ==?=", "éaa", 3);
    // [10.6]
    good("=?UTF-8?B??=", "", 1);
    good("=?UTF-8?B?YWJj?=", "abc", 1);
    good("=?UTF-8?B?YWJjYWI=?=", "abcab", 1);
    good("=?UTF-8?B?Pz8/Pj4+?=", "???>>>", 1);
    for fault in [
        "=?UTF-8?B?YQ==?==?UTF-8?B?YQ==?=", "=?UTF-8?Q?a?==?UTF-8?B?YQ==?=", "=?UTF-8?B?YQ==?==?UTF-8?Q?a?=",
        "=?utf-8?B?YQ==?=", "=?UTF-8?b?YQ==?=", "=?UTF-8?B?YQ=?=", "=?UTF-8?B?YQ?=", "=?UTF-8?B?YWI?=",
        "=?UTF-8?B?YQ==YQ==?=", "=?UTF-8?B?YQ==YWJj?=", "=?UTF-8?B?Y===?=", "=?UTF-8?B?====?=", "=?UTF-8?B?=YQ=?=",
        "=?UTF-8?B?YR==?=", "=?UTF-8?B?YWJ=?=", "=?UTF-8?B?YW Jj?=", "=?UTF-8?B?YWJj", "=?UTF-8?B?YWJj?",
        "=?UTF-8?B?YW\r\n Jj?=", "=?UTF-8?B?-_-_?=", "=?UTF-8?B?YW=j?=", "=?UTF-8?B?YQ=a?=", "=?UTF-8?B?é?=", "a",
        "=?UTF-8?Q?a b?=", "=?UTF-8?Q?=A?=", "=?UTF-8?Q?a?b?=", "=?UTF-8?Q?a", "=?UTF-8?Q?é?=", "\t=?UTF-8?Q?a?=",
        "\r",
    ] {
        assert_eq!(read(fault), None, "{fault}");
    }
    // Every byte at every place of the last group, by writing and by reading.
    for len in 0..=7 {
        for b in 0..=255u8 {
            let bytes: Vec<u8> = (0..len).map(|at| b.wrapping_mul(at * 2 + 1).wrapping_add(at)).collect();
            let mut digits = vec![0; base64_size(bytes.len())];
            write_base64(&bytes, &mut digits);
            let row = [b"=?UTF-8?B?", &digits[..], b"?="].concat();
            assert_eq!(read_row(&row), Some((bytes.clone(), vec![bytes])));
        }
    }
}

// Address fields
