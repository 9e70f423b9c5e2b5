//! How wide text is in a page, and how it is broken into lines. Widths are those of a wide
//! sans-serif font, so that text in another one is no wider than was thought.

/// The width of a character in a font of size 1.
fn character(character: char) -> f64 {
    match character {
        'i' | 'j' | 'l' | '|' | '\'' => 0.28,
        ' ' | ',' | '.' | ':' | ';' | '!' => 0.33,
        'f' | 't' | 'r' | '(' | ')' | '[' | ']' | '-' | '/' => 0.42,
        'I' | 'J' => 0.30,
        'm' | 'M' | 'W' | '@' | '%' | '…' => 1.0,
        'w' | '+' | '−' | '=' | '<' | '>' | '~' => 0.84,
        'A'..='Z' => 0.77,
        ' '..='~' => 0.64,
        '\u{300}'..='\u{36f}' => 0.0,
        '\u{1100}'.. => 1.05,
        _ => 0.75,
    }
}

/// The width of a text in a font of this size.
pub fn width(text: &str, size: f64) -> f64 {
    text.chars().map(character).sum::<f64>() * size
}

/// A text cut so that it fits; an ellipsis tells that something is left out.
pub fn fit(text: &str, size: f64, most: f64) -> String {
    if width(text, size) <= most {
        return text.to_string();
    }
    let mut told = String::new();
    for one in text.chars() {
        told.push(one);
        if width(&told, size) + width("…", size) > most {
            told.pop();
            break;
        }
    }
    format!("{}…", told.trim_end())
}

/// A text in lines that fit, at most so many; the last is cut if there is more.
pub fn lines(text: &str, size: f64, most: f64, count: usize) -> Vec<String> {
    let mut told: Vec<String> = Vec::new();
    let mut line = String::new();
    let mut words = text.split(' ').peekable();
    while let Some(word) = words.next() {
        let longer = if line.is_empty() { word.to_string() } else { format!("{line} {word}") };
        if line.is_empty() || width(&longer, size) <= most {
            line = longer;
            continue;
        }
        if told.len() + 1 == count {
            let rest: Vec<&str> = words.collect();
            line = format!("{longer} {}", rest.join(" "));
            break;
        }
        told.push(fit(&line, size, most));
        line = word.to_string();
    }
    told.push(fit(line.trim_end(), size, most));
    told
}
