//! Characters: "UTF-8 is that of RFC 3629".
//! Written from document 01, The work of one call.

/// "A character is 1 to 4 bytes; past ASCII its length is the number of leading one bits of its first byte."
pub const fn char_len(first: u8) -> usize {
    if first < 128 {
        1
    } else {
        first.leading_ones() as usize
    }
}

/// How many bytes at the front are UTF-8: all of them, or those before the first that is part of no character.
/// "Overlong forms, surrogates and values above 10FFFF are not UTF-8": std follows RFC 3629 in this.
pub fn valid_len(bytes: &[u8]) -> usize {
    match std::str::from_utf8(bytes) {
        Ok(_) => bytes.len(),
        Err(fault) => fault.valid_up_to(),
    }
}

pub fn is_utf8(bytes: &[u8]) -> bool {
    std::str::from_utf8(bytes).is_ok()
}

/// The first place from `at` on whose byte passes the test, or the end. Blocks of 32 are tested without a branch
/// for each byte.
#[inline]
pub fn find(bytes: &[u8], at: usize, test: impl Fn(u8) -> bool) -> usize {
    let mut at = at;
    while let Some(block) = bytes[at..].first_chunk::<32>() {
        if block.iter().fold(false, |found, &b| found | test(b)) {
            break;
        }
        at += 32;
    }
    while at < bytes.len() && !test(bytes[at]) {
        at += 1;
    }
    at
}
