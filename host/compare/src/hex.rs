//! Bytes and words as text.

/// Zeros at the end that are written as their number.
const ZEROS: usize = 24;

/// Bytes as hexadecimal digits, many zeros at the end as a plus sign and their number; a dash for none.
pub fn digits(bytes: &[u8]) -> String {
    if bytes.is_empty() {
        return "-".to_string();
    }
    let last = bytes.iter().rposition(|byte| *byte != 0);
    let behind = last.map_or(0, |last| last + 1);
    let zeros = bytes.len() - behind;
    let (written, zeros) = if zeros < ZEROS {
        (bytes, String::new())
    } else {
        (&bytes[..behind], format!("+{zeros}"))
    };
    let mut text: String = written.iter().map(|byte| format!("{byte:02x}")).collect();
    text.push_str(&zeros);
    text
}

/// The bytes of such a text.
pub fn bytes(text: &str) -> Option<Vec<u8>> {
    if text == "-" {
        return Some(Vec::new());
    }
    let (written, zeros) = text.split_once('+').unwrap_or((text, "0"));
    if !written.is_ascii() || !written.len().is_multiple_of(2) {
        return None;
    }
    let pairs = (0..written.len()).step_by(2);
    let bytes = pairs.map(|at| u8::from_str_radix(&written[at..at + 2], 16));
    let mut bytes: Vec<u8> = bytes.collect::<Result<_, _>>().ok()?;
    bytes.resize(bytes.len() + zeros.parse::<usize>().ok()?, 0);
    Some(bytes)
}

/// Words in hexadecimal, with commas; a dash for none.
pub fn list(words: &[u64]) -> String {
    if words.is_empty() {
        return "-".to_string();
    }
    words
        .iter()
        .map(|word| format!("{word:x}"))
        .collect::<Vec<_>>()
        .join(",")
}

/// The words of such a text.
pub fn words(text: &str) -> Option<Vec<u64>> {
    if text == "-" {
        return Some(Vec::new());
    }
    text.split(',')
        .map(|word| u64::from_str_radix(word, 16).ok())
        .collect()
}
