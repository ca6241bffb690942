//! Rows of encoded words.
//! Written from document 01, Encoded words, and the requests named below.

use crate::sink::Sink;
use crate::utf8::char_len;

/// "A word is `=?UTF-8?Q?`, 1 to 63 characters, `?=`."
pub const ROOM: usize = 63;
/// "such a line has at most 76 characters"
const LINE: usize = 76;

/// How each byte is spelled: "Letters, digits and `!*+-/` stand for themselves, space is `_`, each other byte is `=`
/// and two uppercase hex digits." The fourth byte fills up.
pub static SPELLING: [[u8; 4]; 256] = {
    let digits = b"0123456789ABCDEF";
    let mut spelling = [[0; 4]; 256];
    let mut b = 0;
    while b < 256 {
        spelling[b] = match b as u8 {
            b' ' => [b'_', 0, 0, 0],
            itself if stands_for_itself(itself) => [itself, 0, 0, 0],
            _ => [b'=', digits[b >> 4], digits[b & 15], 0],
        };
        b += 1;
    }
    spelling
};

/// How many characters each byte's spelling has.
pub static SIZE: [u8; 256] = {
    let mut size = [3; 256];
    let mut b = 0;
    while b < 256 {
        if b == 32 || stands_for_itself(b as u8) {
            size[b] = 1;
        }
        b += 1;
    }
    size
};

/// How many characters the spelling of the whole character has whose first byte this is; none for the bytes behind
/// the first.
static WHOLE: [u8; 256] = {
    let mut whole = SIZE;
    let mut b = 128;
    while b < 256 {
        whole[b] = if b < 192 { 0 } else { 3 * char_len(b as u8) as u8 };
        b += 1;
    }
    whole
};

const fn stands_for_itself(b: u8) -> bool {
    b.is_ascii_alphanumeric() || matches!(b, b'!' | b'*' | b'+' | b'-' | b'/')
}

#[derive(Clone, Copy, PartialEq, Eq, Debug)]
pub enum Encoding {
    Q,
    B,
}

/// What a word holds of the text before it.
#[derive(Clone, Copy, PartialEq, Eq, Debug)]
pub struct Word {
    pub encoding: Encoding,
    /// Bytes of the text.
    pub len: usize,
    /// Characters between the brackets.
    pub size: usize,
}

/// [10]: "Each word takes the encoding that holds more whole characters in its room, Q when equal." [10.2]: of what is
/// left of the text. A longer beginning of the text has more characters.
pub fn first_word(text: &[u8], room: usize) -> Word {
    let q = first_q_word(text, room);
    let len = first_b_len(text, room);
    if len > q.len {
        Word { encoding: Encoding::B, len, size: base64_size(len) }
    } else {
        q
    }
}

/// "A word takes as many whole characters as fit", in Q.
#[inline]
pub fn first_q_word(text: &[u8], room: usize) -> Word {
    let mut size = 0;
    for (at, &b) in text.iter().enumerate() {
        let next = size + WHOLE[b as usize] as usize;
        if next > room {
            return Word { encoding: Encoding::Q, len: at, size };
        }
        size = next;
    }
    Word { encoding: Encoding::Q, len: text.len(), size }
}

/// The same in B. [10.1]: "B fits when 4 for each 3 bytes begun has: it holds 3 * (room / 4) bytes".
fn first_b_len(text: &[u8], room: usize) -> usize {
    let mut len = 3 * (room / 4);
    if len >= text.len() {
        return text.len();
    }
    // Back to the start of a character.
    while text[len] & 0xC0 == 0x80 {
        len -= 1;
    }
    len
}

/// "with the usual padding": [10.1]: "four digits are always written".
pub fn base64_size(len: usize) -> usize {
    len.div_ceil(3) * 4
}

/// RFC 2045, section 6.8.
const DIGITS: &[u8; 64] = b"ABCDEFGHIJKLMNOPQRSTUVWXYZabcdefghijklmnopqrstuvwxyz0123456789+/";

/// Each two digits by the 12 bits that they stand for.
static TWO_DIGITS: [[u8; 2]; 4096] = {
    let mut two = [[0; 2]; 4096];
    let mut bits = 0;
    while bits < 4096 {
        two[bits] = [DIGITS[bits >> 6], DIGITS[bits & 63]];
        bits += 1;
    }
    two
};

/// Four digits for each three bytes begun; `out` has just that size.
pub fn write_base64(bytes: &[u8], out: &mut [u8]) {
    let mut fours = out.chunks_exact_mut(4);
    let mut threes = bytes.chunks_exact(3);
    for (three, four) in threes.by_ref().zip(fours.by_ref()) {
        let bits = (three[0] as usize) << 16 | (three[1] as usize) << 8 | three[2] as usize;
        four[..2].copy_from_slice(&TWO_DIGITS[bits >> 12]);
        four[2..].copy_from_slice(&TWO_DIGITS[bits & 0xFFF]);
    }
    let (bits, padding) = match *threes.remainder() {
        [a, b] => ((a as usize) << 16 | (b as usize) << 8, 1),
        [a] => ((a as usize) << 16, 2),
        _ => return,
    };
    let four = fours.next().expect("digits for the last bytes");
    four[..2].copy_from_slice(&TWO_DIGITS[bits >> 12]);
    four[2..].copy_from_slice(&TWO_DIGITS[bits & 0xFFF]);
    four[4 - padding..].fill(b'=');
}

/// The encoded words of a text. "Every word has a line of its own: CRLF and one space come before it". [5.5]: the first
/// one too in a rewritten address field and in comments.
pub fn row(sink: &mut impl Sink, text: &[u8]) {
    let mut rest = text;
    while !rest.is_empty() {
        let word = first_word(rest, ROOM);
        sink.put(b"\r\n ");
        rest = write_word(sink, rest, word);
    }
}

/// [5]: "put the first word after the colon and one space, as far as 76 characters allow. If no character fits, begin
/// on the next line." [5.1]: the 76 count the name, the colon, the space and the whole word. [10.4]: no character by
/// either encoding.
pub fn row_after_name(sink: &mut impl Sink, name_len: usize, text: &[u8]) {
    let mut rest = text;
    let word = first_word(text, LINE.saturating_sub(name_len + ": =?UTF-8?Q?".len() + "?=".len()));
    if word.len > 0 {
        sink.put(b" ");
        rest = write_word(sink, rest, word);
    }
    row(sink, rest);
}

/// Writes a word; what is left of the text.
#[inline]
fn write_word<'a>(sink: &mut impl Sink, text: &'a [u8], word: Word) -> &'a [u8] {
    let (held, rest) = text.split_at(word.len);
    match word.encoding {
        Encoding::Q => {
            sink.put(b"=?UTF-8?Q?");
            sink.spell(held, word.size);
        }
        Encoding::B => {
            sink.put(b"=?UTF-8?B?");
            sink.base64(held, word.size);
        }
    }
    sink.put(b"?=");
    rest
}
