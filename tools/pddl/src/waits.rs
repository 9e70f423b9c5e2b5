//! 15: the waits, records of action number and fact number.

use crate::place::{Source, Trouble};

/// A wait: both numbers, and where its fields stand.
pub struct Wait {
    pub fields: [Field; 2],
}

#[derive(Clone, Copy)]
pub struct Field {
    pub number: u64,
    pub begin: usize,
    pub end: usize,
}

/// The waits, or the first place that is not as records are.
pub fn read(text: &[u8]) -> Result<Vec<Wait>, Trouble> {
    let wrong = |begin: usize, end: usize, said: &str| {
        let end = end.max(begin + 1).min(text.len().max(begin));
        Err(Trouble::new(15, Source::Waits, text, (begin, end), said.to_string()))
    };
    let mut waits = Vec::new();
    let mut fields: Vec<Field> = Vec::new();
    let mut begin = 0;
    let mut at = 0;
    while at < text.len() || begin < at || !fields.is_empty() {
        let byte = text.get(at).copied();
        if byte.is_some_and(|byte| byte.is_ascii_digit()) {
            at += 1;
            continue;
        }
        // Here a field ends.
        let blank = at == begin && fields.is_empty();
        match byte {
            Some(b',') | None => {}
            Some(b'\r') if text.get(at + 1) == Some(&b'\n') => {}
            Some(b'\r') => return wrong(at, at + 1, "expected LF after CR"),
            Some(b'\n') if !blank => {
                let said = "expected CR LF at the record's end (./lawcheck --crlf adds the CR)";
                return wrong(at, at + 1, said);
            }
            Some(b'\n') => {}
            Some(b' ') => return wrong(at, at + 1, "expected digits alone"),
            Some(b'"') => return wrong(at, at + 1, "expected digits: fields have no quotes"),
            Some(b';' | b'\t') => return wrong(at, at + 1, "expected a comma between the fields"),
            Some(b'a'..=b'z' | b'A'..=b'Z') => {
                let said = "expected an action's number and a fact's number: waits have no header \
                            and no names";
                return wrong(at, at + 1, said);
            }
            Some(_) => return wrong(at, at + 1, "expected a digit"),
        }
        if blank && matches!(byte, Some(b'\r' | b'\n')) {
            return wrong(at, at + 1, "expected a record: waits have no blank lines");
        }
        let number = &text[begin..at];
        if number.is_empty() {
            return wrong(at, at + 1, "expected a number before it");
        }
        if number.len() > 1 && number[0] == b'0' {
            return wrong(begin, at, "expected a number without leading zeros");
        }
        let told = std::str::from_utf8(number).expect("digits are text");
        let Ok(number) = told.parse() else {
            return wrong(begin, at, "expected a number up to 18446744073709551615");
        };
        fields.push(Field { number, begin, end: at });
        if byte == Some(b',') {
            if fields.len() == 2 {
                let said = "expected the record's end: a wait has two fields, action and fact";
                return wrong(at, at + 1, said);
            }
            at += 1;
        } else {
            let [action, fact] = fields[..] else {
                let said = "expected a comma and the fact's number after the action's number";
                return wrong(at, at + 1, said);
            };
            waits.push(Wait { fields: [action, fact] });
            fields.clear();
            at = (at + 2).min(text.len());
        }
        begin = at;
    }
    Ok(waits)
}
