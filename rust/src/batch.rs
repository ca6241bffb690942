//! Many messages in one call.
//! Written from request [9] of document 02.

use crate::call::downgrade;

/// "nine to a record: start and length of the envelope, then of the header, in one input buffer, then five we fill:
/// number, place, offset and the two output lengths"
pub const RECORD: usize = 9;
/// Of these the caller fills four.
pub const RANGES: usize = 4;

/// "9 (demand 1 gains it), a start plus its length past the end of the input buffer, before all others, place, offset
/// and lengths 0"
const OUTSIDE: [u32; 5] = [9, 0, 0, 0, 0];

/// "Outputs go one after another into the two buffers." "a last part of fewer than nine are not touched". [13]: "A batch
/// has one setting."
pub fn downgrade_batch(
    setting: u64,
    input: &[u8],
    records: &mut [u32],
    mut envelope_room: &mut [u8],
    mut header_room: &mut [u8],
) {
    for record in records.chunks_exact_mut(RECORD) {
        let (ranges, five) = record.split_at_mut(RANGES);
        // [9.3]: "Either range makes 9, and 9 goes before all"
        let (Some(envelope), Some(header)) = (part(input, ranges[0], ranges[1]), part(input, ranges[2], ranges[3]))
        else {
            five.copy_from_slice(&OUTSIDE);
            continue;
        };
        // "Each record's answer and bytes equal those of a single call given the room that is left, and a refused
        // record takes no room": its lengths are 0.
        let answer = downgrade(setting, envelope, header, envelope_room, header_room);
        envelope_room = &mut envelope_room[answer.envelope_len..];
        header_room = &mut header_room[answer.header_len..];
        let numbers = [answer.place, answer.offset, answer.envelope_len, answer.header_len];
        five[0] = answer.number;
        for (out, number) in five[1..].iter_mut().zip(numbers) {
            // [9.9]: "All five fit in 32 bits".
            *out = number.try_into().expect("a number of 32 bits");
        }
    }
}

/// [9.2]: "The sum is exact, of up to 33 bits"; "equal to the buffer's length is good".
fn part(input: &[u8], start: u32, len: u32) -> Option<&[u8]> {
    let end = u64::from(start) + u64::from(len);
    if end > input.len() as u64 {
        return None;
    }
    Some(&input[start as usize..end as usize])
}
