//! "Text": the text reader.

use super::task::{check, ROW};
use super::Refusal;

/// The most records of a text: one row 0, 8 goal rows, 256 action rows.
pub const RECORDS: usize = 265;

/// The words of a text, or none where the text is not as the paper says.
pub fn words(text: &[u8]) -> Option<Vec<u64>> {
    let mut words = Vec::new();
    let records = records(text);
    if records.len() > RECORDS {
        return None;
    }
    for record in records {
        let fields: Vec<&[u8]> = record.split(|&byte| byte == b',').collect();
        if fields.len() != ROW {
            return None;
        }
        for field in fields {
            words.push(number(field)?);
        }
    }
    Some(words)
}

/// Splits a text at CR LF. The last record may lack it; the empty text has no record.
pub(super) fn records(text: &[u8]) -> Vec<&[u8]> {
    let mut records = Vec::new();
    let mut begin = 0;
    let mut at = 0;
    while at < text.len() {
        if text[at..].starts_with(b"\r\n") {
            records.push(&text[begin..at]);
            at += 2;
            begin = at;
        } else {
            at += 1;
        }
    }
    if begin < text.len() {
        records.push(&text[begin..]);
    }
    records
}

/// A field: digits without a leading zero, at most 2^64 - 1.
pub(super) fn number(field: &[u8]) -> Option<u64> {
    let digits = std::str::from_utf8(field).ok()?;
    let plain = !digits.is_empty() && digits.bytes().all(|byte| byte.is_ascii_digit());
    if !plain || (digits.len() > 1 && digits.starts_with('0')) {
        return None;
    }
    digits.parse().ok()
}

/// The operation: the number of records.
pub fn read(text: &[u8], slice: &mut [u64]) -> Result<usize, Refusal> {
    if slice.len() < RECORDS * ROW {
        return Err(14);
    }
    slice.fill(0);
    let words = words(text).ok_or(15u64)?;
    check(&words)?;
    slice[..words.len()].copy_from_slice(&words);
    Ok(words.len() / ROW)
}
