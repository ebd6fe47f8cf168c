//! Hexadecimal digits, and the blanks that may stand between them.

const BLANK: u8 = 0x40;
const OTHER: u8 = 0x80;

/// For each byte the value of the digit, or what else it is.
const DIGITS: [u8; 256] = {
    let mut table = [OTHER; 256];
    let mut value = 0;
    while value < 10 {
        table[b'0' as usize + value] = value as u8;
        value += 1;
    }
    while value < 16 {
        table[b'a' as usize + value - 10] = value as u8;
        table[b'A' as usize + value - 10] = value as u8;
        value += 1;
    }
    table[b' ' as usize] = BLANK;
    table[b'\t' as usize] = BLANK;
    table[b'\r' as usize] = BLANK;
    table
};

#[inline]
pub fn is_blank(byte: &u8) -> bool {
    DIGITS[*byte as usize] == BLANK
}

/// The bytes that a text of digits and blanks writes; none if there is anything else or a digit too many.
pub fn decode(text: &[u8]) -> Option<Vec<u8>> {
    let mut bytes = vec![0; text.len() / 2];
    let mut count = 0;
    let mut rest = text;
    loop {
        // Whole pairs as long as they come, then one pair that may have blanks before its digits.
        let pairs = whole_pairs(rest, &mut bytes[count..]);
        count += pairs;
        rest = skip_blanks(&rest[2 * pairs..]);
        let [high, after @ ..] = rest else { break };
        let [low, after @ ..] = skip_blanks(after) else { return None };
        bytes[count] = pair(*high, *low)?;
        count += 1;
        rest = after;
    }
    bytes.truncate(count);
    Some(bytes)
}

/// Decodes pairs of digits up to what is none, and gives how many there were.
fn whole_pairs(text: &[u8], bytes: &mut [u8]) -> usize {
    let mut count = 0;
    for (digits, byte) in text.chunks_exact(2).zip(bytes) {
        let Some(value) = pair(digits[0], digits[1]) else { break };
        *byte = value;
        count += 1;
    }
    count
}

fn skip_blanks(text: &[u8]) -> &[u8] {
    let blanks = text.iter().take_while(|byte| is_blank(byte)).count();
    &text[blanks..]
}

#[inline]
fn pair(high: u8, low: u8) -> Option<u8> {
    let (high, low) = (DIGITS[high as usize], DIGITS[low as usize]);
    if high | low < 16 { Some(high << 4 | low) } else { None }
}
