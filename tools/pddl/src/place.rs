//! Places in a text, and what is wrong there.

/// Which of the two texts.
#[derive(Clone, Copy, Debug, PartialEq)]
pub enum Source {
    Law,
    Waits,
}

/// What is wrong, and where.
#[derive(Clone, Debug, PartialEq)]
pub struct Trouble {
    /// The refusal's number.
    pub number: u64,
    pub source: Source,
    /// From 1 on; a column is a byte.
    pub line: usize,
    pub column: usize,
    /// The word that stands there.
    pub word: String,
    /// What is wrong with it, or what was expected.
    pub said: String,
}

impl Trouble {
    /// What is wrong with the bytes of a text from `begin` to `end`.
    pub fn new(
        number: u64,
        source: Source,
        text: &[u8],
        range: (usize, usize),
        said: String,
    ) -> Trouble {
        let (begin, end) = range;
        let (line, column) = place(text, begin);
        let word = if begin < text.len() { shown(&text[begin..end]) } else { "the end".into() };
        Trouble { number, source, line, column, word, said }
    }

    /// The message, with the names of the two files.
    pub fn message(&self, law: &str, waits: &str) -> String {
        let file = match self.source {
            Source::Law => law,
            Source::Waits => waits,
        };
        let Trouble { line, column, word, said, .. } = self;
        format!("{file}, line {line}, column {column}: {word}: {said}")
    }
}

/// Line and column of a byte, both from 1 on.
pub fn place(text: &[u8], at: usize) -> (usize, usize) {
    let before = &text[..at.min(text.len())];
    let line = 1 + before.iter().filter(|&&byte| byte == b'\n').count();
    let begin = before.iter().rposition(|&byte| byte == b'\n').map_or(0, |at| at + 1);
    (line, 1 + before.len() - begin)
}

/// The most letters of a word that are shown.
const SHOWN: usize = 40;

/// A word as it is shown: the front of a long one, and bytes that are no letters by their number.
pub fn shown(word: &[u8]) -> String {
    if let [byte] = word {
        match byte {
            b'\n' => return "LF".to_string(),
            b'\r' => return "CR".to_string(),
            b'\t' => return "a tab".to_string(),
            b' ' => return "a space".to_string(),
            _ => {}
        }
    }
    let mut shown = String::new();
    for &byte in word.iter().take(SHOWN) {
        if byte.is_ascii_graphic() {
            shown.push(byte as char);
        } else {
            shown += &format!("<byte {byte}>");
        }
    }
    if word.len() > SHOWN {
        shown += "..";
    }
    shown
}
