//! Pieces of a line: numbers, lists, entries and hex.

use crate::entry::{entry, Entry};

/// Digits only, without leading zeros, at most `most`.
pub fn number(text: &[u8], most: u64) -> Option<u64> {
    let leading_zero = text.len() > 1 && text[0] == b'0';
    if leading_zero || !text.iter().all(u8::is_ascii_digit) {
        return None;
    }
    // No digits at all, or more than 64 bits take, is not a number either.
    let value = std::str::from_utf8(text).ok()?.parse().ok()?;
    (value <= most).then_some(value)
}

/// The pieces of a list by commas, or none for the empty text; each has to read and to be above the one before.
pub fn ascending<T: PartialOrd>(text: &[u8], read: impl Fn(&[u8]) -> Option<T>) -> Option<Vec<T>> {
    if text.is_empty() {
        return Some(Vec::new());
    }
    let pieces: Vec<T> = text.split(|&byte| byte == b',').map(read).collect::<Option<_>>()?;
    pieces.is_sorted_by(|before, after| before < after).then_some(pieces)
}

/// meter.interval.watthours
pub fn read_entry(text: &[u8]) -> Option<Entry> {
    let mut fields = text.split(|&byte| byte == b'.');
    let meter = number(fields.next()?, u16::MAX.into())?;
    let interval = number(fields.next()?, u16::MAX.into())?;
    let watt_hours = number(fields.next()?, u32::MAX.into())?;
    fields.next().is_none().then(|| entry(meter as u16, interval as u16, watt_hours as u32))
}

/// Bytes in lower-case hex.
pub fn hex(text: &[u8]) -> Option<Vec<u8>> {
    let digit = |byte: u8| match byte {
        b'0'..=b'9' => Some(byte - b'0'),
        b'a'..=b'f' => Some(byte - b'a' + 10),
        _ => None,
    };
    let byte = |pair: &[u8]| match *pair {
        [high, low] => Some(digit(high)? << 4 | digit(low)?),
        _ => None,
    };
    text.chunks(2).map(byte).collect()
}
