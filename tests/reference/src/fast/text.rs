//! The text reader: one pass over the bytes.

use super::Task;
use crate::interface::{ROW, ROWS};

const WORDS: usize = ROW * ROWS;

/// The words of a text; none where the text is malformed.
pub fn read_words(text: &[u8]) -> Option<Vec<u64>> {
    let mut words: Vec<u64> = Vec::new();
    let mut field: Option<u64> = None;
    let mut bytes = text.iter().copied().peekable();
    while let Some(byte) = bytes.next() {
        match byte {
            b'0'..=b'9' => {
                let digit = (byte - b'0') as u64;
                field = Some(match field {
                    None => digit,
                    Some(0) => return None,
                    Some(value) => value.checked_mul(10)?.checked_add(digit)?,
                });
            }
            b',' if words.len() % ROW < ROW - 1 => words.push(field.take()?),
            b'\r' if words.len() % ROW == ROW - 1 && bytes.next() == Some(b'\n') => {
                words.push(field.take()?);
            }
            _ => return None,
        }
        if words.len() == WORDS && bytes.peek().is_some() {
            return None;
        }
    }
    if let Some(last) = field {
        words.push(last);
    }
    words.len().is_multiple_of(ROW).then_some(words)
}

pub(super) fn read(text: &[u8], words: &mut [u64]) -> Result<[u64; 1], u64> {
    if words.len() < WORDS {
        return Err(14);
    }
    let checked = read_words(text).ok_or(15).and_then(|read| Task::check(&read).map(|_| read));
    words.fill(0);
    let read = checked?;
    words[..read.len()].copy_from_slice(&read);
    Ok([(read.len() / ROW) as u64])
}
