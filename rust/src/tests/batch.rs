//! Tests: batches, request [9], and recipients that do not show, request [14].

use super::*;

const GOOD_ENVELOPE: &str = "MAIL FROM:<a@x>\r\nRCPT TO:<b@y>\r\n";

/// An input of these parts one after another, and the range of each.
fn laid_out(parts: &[&str]) -> (Vec<u8>, Vec<[u32; 2]>) {
    let (mut input, mut ranges) = (Vec::new(), Vec::new());
    for part in parts {
        ranges.push([input.len() as u32, part.len() as u32]);
        input.extend_from_slice(part.as_bytes());
    }
    (input, ranges)
}

/// Records of these ranges, with old values in the five.
fn records(ranges: &[([u32; 2], [u32; 2])]) -> Vec<u32> {
    ranges.iter().flat_map(|(e, h)| [e[0], e[1], h[0], h[1], 7, 7, 7, 7, 7]).collect()
}

/// The five of each record after the call, and what was written to the two buffers.
fn batch(
    setting: u64,
    input: &[u8],
    ranges: &[([u32; 2], [u32; 2])],
    rooms: (usize, usize),
) -> (Vec<[u32; 5]>, String, String) {
    let before = records(ranges);
    let mut after = before.clone();
    let (mut envelope, mut header) = (vec![0xEE; rooms.0], vec![0xEE; rooms.1]);
    downgrade_batch(setting, input, &mut after, &mut envelope, &mut header);
    let fives: Vec<[u32; 5]> = after.chunks(9).map(|record| record[4..].try_into().unwrap()).collect();
    for (before, after) in before.chunks(9).zip(after.chunks(9)) {
        assert_eq!(before[..4], after[..4]);
    }
    let sum = |at: usize| fives.iter().map(|five| five[at] as usize).sum::<usize>();
    for (buffer, len) in [(&mut envelope, sum(3)), (&mut header, sum(4))] {
        assert!(buffer[len..].iter().all(|&b| b == 0xEE));
        buffer.truncate(len);
    }
    (fives, String::from_utf8(envelope).unwrap(), String::from_utf8(header).unwrap())
}

#[test]
fn records_in_order() {
    // [9.1], [9.6]: in any order, shared, repeated.
    let (input, at) = laid_out(&["Subject: é\r\n", GOOD_ENVELOPE, "A: b\r\n", WHOLE_ENVELOPE]);
    let ranges = [(at[1], at[2]), (at[3], at[0]), (at[1], at[0]), (at[1], at[2])];
    let (fives, envelope, header) = batch(0, &input, &ranges, (1000, 1000));
    let subject = "Subject: =?UTF-8?Q?=C3=A9?=\r\n";
    let whole = call(WHOLE_ENVELOPE.as_bytes(), "Subject: é\r\n".as_bytes());
    let len = |text: &str| text.len() as u32;
    assert_eq!(
        fives,
        [
            [0, 0, 0, len(GOOD_ENVELOPE), 6],
            [0, 0, 0, 54, len(&whole.2)],
            [0, 0, 0, len(GOOD_ENVELOPE), len(subject)],
            [0, 0, 0, len(GOOD_ENVELOPE), 6]
        ]
    );
    assert_eq!(envelope, [GOOD_ENVELOPE, &whole.1, GOOD_ENVELOPE, GOOD_ENVELOPE].concat());
    assert_eq!(header, ["A: b\r\n", &whole.2, subject, "A: b\r\n"].concat());
    // [9.12]: one setting for all of them.
    let (fives, ..) = batch(1 << 32, &input, &ranges, (1000, 1000));
    assert_eq!(fives.iter().map(|five| five[0]).collect::<Vec<_>>(), [0, 10, 0, 0]);
    // [9.5]: an offset counts from the start of the record's own part.
    let offset = WHOLE_ENVELOPE.find("ESS=").unwrap() as u32 + 4;
    assert_eq!(fives[1], [10, 0, offset, 0, 0]);
    // The envelope as a header, and the header as an envelope.
    let (fives, ..) = batch(0, &input, &[(at[0], at[1]), (at[1], at[3])], (1000, 1000));
    assert_eq!(fives, [[2, 0, 0, 0, 0], [5, 0, 4, 0, 0]]);
    // No records.
    assert_eq!(batch(0, &input, &[], (9, 9)), (vec![], String::new(), String::new()));
}

#[test]
fn ranges_past_the_input() {
    // [9.2], [9.3]
    let (input, at) = laid_out(&["A: b\r\n", GOOD_ENVELOPE]);
    let size = input.len() as u32;
    let envelope = at[1];
    for (range, good) in [
        ([0, 6], true),
        ([size, 0], true),
        ([size - 1, 0], true),
        ([size, 1], false),
        ([size + 1, 0], false),
        ([0, size + 1], false),
        ([1, size], false),
        ([u32::MAX, 1], false),
        ([u32::MAX, 7], false),
        ([1, u32::MAX], false),
        ([6, u32::MAX - 5], false),
        ([u32::MAX, u32::MAX], false),
        ([1 << 31, 1 << 31], false),
        ([u32::MAX, 0], false),
    ] {
        let (fives, ..) = batch(0, &input, &[(envelope, range)], (100, 100));
        assert_eq!(fives[0][0], if good { 0 } else { 9 }, "{range:?}");
        let (fives, ..) = batch(0, &input, &[(range, at[0])], (100, 100));
        assert_eq!(fives[0][0], if good { 2 } else { 9 }, "{range:?}");
        if !good {
            assert_eq!(fives[0], [9, 0, 0, 0, 0]);
            // It stops no other record and takes no room.
            let ranges = [(envelope, range), (envelope, at[0]), (range, range), (envelope, at[0])];
            let (fives, ..) = batch(0, &input, &ranges, (64, 12));
            assert_eq!(fives.iter().map(|five| five[0]).collect::<Vec<_>>(), [9, 0, 9, 0]);
        }
    }
    // The end of the input is good for an envelope too.
    assert_eq!(envelope[0] + envelope[1], size);
    // 9 goes before 1 and 2.
    let long = vec![b'x'; 40_000];
    let five = |ranges| batch(0, &long, &[ranges], (0, 0)).0[0];
    assert_eq!(five(([0, 16_385], [0, 40_001])), [9, 0, 0, 0, 0]);
    assert_eq!(five(([0, 16_385], [0, 40_000])), [1, 0, 0, 0, 0]);
    assert_eq!(five(([0, 0], [0, 40_000])), [1, 1, 0, 0, 0]);
    assert_eq!(five(([0, 0], [40_001, 0])), [9, 0, 0, 0, 0]);
    assert_eq!(five(([0, 0], [40_000, 0])), [2, 0, 0, 0, 0]);
    assert_eq!(batch(0, b"", &[([0, 0], [0, 0]), ([0, 1], [0, 0])], (0, 0)).0, [[2, 0, 0, 0, 0], [9, 0, 0, 0, 0]]);
}

#[test]
fn room_that_is_left() {
    // [9.4]
    let long = format!("X: {}\r\n", "x".repeat(100));
    let (input, at) = laid_out(&[GOOD_ENVELOPE, "A: b\r\n", &long, "Date: é\r\n"]);
    let (small, big, held) = ((at[0], at[1]), (at[0], at[2]), (at[0], at[3]));
    let run = |ranges: &[([u32; 2], [u32; 2])], rooms| batch(0, &input, ranges, rooms).0;
    let zero = |header| [0, 0, 0, 32, header];
    assert_eq!(run(&[small, big, held, small], (96, 117)), [zero(6), zero(105), [6, 0, 6, 0, 0], zero(6)]);
    // A refused one takes nothing of either buffer; a later one may fit.
    assert_eq!(run(&[small, big, held, small], (64, 12)), [zero(6), [8, 105, 0, 0, 0], [6, 0, 6, 0, 0], zero(6)]);
    assert_eq!(run(&[big, small, small], (64, 110)), [zero(105), [8, 6, 0, 0, 0], [8, 6, 0, 0, 0]]);
    assert_eq!(run(&[small, small, big], (63, 200)), [zero(6), [7, 32, 0, 0, 0], [7, 32, 0, 0, 0]]);
    assert_eq!(run(&[small, big], (0, 0)), [[7, 32, 0, 0, 0], [7, 32, 0, 0, 0]]);
    // A header of no bytes wants no room.
    assert_eq!(run(&[small, (at[0], [5, 0])], (64, 6)), [zero(6), zero(0)]);
}

#[test]
fn last_part_of_a_record() {
    // [9.7], [9.8]
    let (input, at) = laid_out(&[GOOD_ENVELOPE, "A: b\r\n"]);
    for tail in 0..9 {
        for count in 0..3 {
            let whole = records(&vec![(at[0], at[1]); count]);
            let mut numbers = whole.clone();
            numbers.extend((0..tail).map(|at| 1000 + at));
            downgrade_batch(0, &input, &mut numbers, &mut [0; 100], &mut [0; 100]);
            assert_eq!(numbers[9 * count..], (0..tail).map(|at| 1000 + at).collect::<Vec<_>>());
            for record in numbers[..9 * count].chunks(9) {
                assert_eq!(record, [at[0][0], at[0][1], at[1][0], at[1][1], 0, 0, 0, 32, 6]);
            }
        }
    }
}

// No recipient learns of another

/// The header that is written for a message.
fn header_for(setting: u64, envelope: &str, header: &str) -> String {
    let (answer, _, out) = call_set(setting, envelope.as_bytes(), header.as_bytes());
    assert_eq!(answer.number, 0, "{envelope}");
    out
}

#[test]
fn recipients_do_not_show() {
    let mail = "MAIL FROM:<é@x> ALT-ADDRESS=e@x\r\n";
    let header = "To: <é@x <a@b>>, é@y\r\nSubject: é\r\nReceived: x for <é@x>\r\n";
    let (one, two) = ("RCPT TO:<ά@y> ALT-ADDRESS=a@y\r\n", "RCPT TO:<b@y> X=1\r\n");
    let want = header_for(0, &(mail.to_string() + one + two), header);
    for recipients in [[two, two].concat(), [one, one, one].concat(), [two, one].concat(), two.repeat(100)] {
        assert_eq!(header_for(0, &(mail.to_string() + &recipients), header), want);
    }
    // [14.4]: each premise is needed. One RCPT line, another MAIL line, another setting.
    assert_ne!(header_for(0, &(mail.to_string() + one), header), want);
    let other = header_for(0, &(mail.to_string() + "RCPT TO:<ά@y> ALT-ADDRESS=c@y\r\n"), header);
    assert_ne!(header_for(0, &(mail.to_string() + one), header), other);
    assert_ne!(header_for(0, &("MAIL FROM:<é@x> ALT-ADDRESS=f@x\r\n".to_string() + one + two), header), want);
    let ascii = MAIL.to_string() + two + two;
    assert_ne!(header_for(0, &ascii, header), header_for(1, &ascii, header));
    // [14.3]: two records of one batch, their header bytes at the sum of the earlier header lengths.
    let (first, second) = (mail.to_string() + one + two, mail.to_string() + two + two + two);
    let (input, at) = laid_out(&[&first, header, &second, GOOD_ENVELOPE]);
    let (fives, _, headers) = batch(0, &input, &[(at[0], at[1]), (at[3], at[1]), (at[2], at[1])], (1000, 5000));
    let start = (fives[0][4] + fives[1][4]) as usize;
    assert_eq!(fives.iter().map(|five| five[0]).collect::<Vec<_>>(), [0, 0, 0]);
    assert_eq!(headers[..fives[0][4] as usize], want);
    assert_eq!(headers[start..], want);
}
