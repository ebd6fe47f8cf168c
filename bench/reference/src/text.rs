//! Numbers and log entries as text, straight into the output.

use crate::player::Entry;

pub fn number(mut value: u32, out: &mut Vec<u8>) {
    let mut digits = [0; 10];
    let mut first = digits.len();
    loop {
        first -= 1;
        digits[first] = b'0' + (value % 10) as u8;
        value /= 10;
        if value == 0 {
            break;
        }
    }
    out.extend_from_slice(&digits[first..]);
}

/// Puts text and numbers one behind the other.
macro_rules! say {
    ($out:expr $(, $piece:expr)*) => {{ $( $crate::text::Say::say(&$piece, $out); )* }};
}
pub(crate) use say;

pub trait Say {
    fn say(&self, out: &mut Vec<u8>);
}

impl Say for &str {
    #[inline]
    fn say(&self, out: &mut Vec<u8>) {
        out.extend_from_slice(self.as_bytes());
    }
}

impl Say for u32 {
    #[inline]
    fn say(&self, out: &mut Vec<u8>) {
        number(*self, out);
    }
}

impl Say for usize {
    #[inline]
    fn say(&self, out: &mut Vec<u8>) {
        number(*self as u32, out);
    }
}

impl Say for u8 {
    #[inline]
    fn say(&self, out: &mut Vec<u8>) {
        number(*self as u32, out);
    }
}

impl Say for u16 {
    #[inline]
    fn say(&self, out: &mut Vec<u8>) {
        number(*self as u32, out);
    }
}

/// A line for each entry: port, letter, answer and station.
pub fn entries(log: &[Entry], out: &mut Vec<u8>) {
    out.reserve(log.len() * 10);
    for entry in log {
        // The longest line has two blanks, four numbers of up to three digits, and what parts and ends them.
        let mut line = [b' '; 24];
        let mut end = 2;
        for value in [entry.port, entry.letter, entry.answer, entry.station] {
            if value >= 100 {
                line[end] = b'0' + value / 100;
                end += 1;
            }
            if value >= 10 {
                line[end] = b'0' + value / 10 % 10;
                end += 1;
            }
            line[end] = b'0' + value % 10;
            end += 2;
        }
        line[end - 1] = b'\n';
        out.extend_from_slice(&line[..end]);
    }
}
