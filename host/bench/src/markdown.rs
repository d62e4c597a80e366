//! Numbers, paragraphs and tables as text.

/// The most columns of a line that is no table.
const COLUMNS: usize = 120;

/// A number with three digits that count, or a whole one.
pub fn short(number: f64) -> String {
    if number >= 1000.0 {
        return whole(number.round() as u64);
    }
    let decimals = (2.0 - number.log10().floor()).clamp(0.0, 9.0);
    format!("{number:.*}", decimals as usize)
}

/// A whole number, its digits in groups of three.
pub fn whole(number: u64) -> String {
    let digits = number.to_string();
    let mut text = String::new();
    for (index, digit) in digits.chars().enumerate() {
        if index > 0 && (digits.len() - index).is_multiple_of(3) {
            text.push(',');
        }
        text.push(digit);
    }
    text
}

pub fn paragraph(text: &str) -> String {
    filled("", text)
}

pub fn bullet(text: &str) -> String {
    filled("- ", text)
}

/// Words filled into lines, of which the first has a mark and the others are as far in.
fn filled(mark: &str, text: &str) -> String {
    let mut lines = mark.to_string();
    let mut column = mark.len();
    for word in text.split_whitespace() {
        let length = word.chars().count();
        if column > mark.len() {
            if column + 1 + length > COLUMNS {
                lines.push('\n');
                lines.push_str(&" ".repeat(mark.len()));
                column = mark.len();
            } else {
                lines.push(' ');
                column += 1;
            }
        }
        lines.push_str(word);
        column += length;
    }
    lines.push('\n');
    lines
}

/// A table with its heads, of which the first is of text and the others are of numbers.
pub fn table(heads: &[&str], rows: impl IntoIterator<Item = Vec<String>>) -> String {
    let line = |cells: &[String]| format!("| {} |\n", cells.join(" | "));
    let heads: Vec<String> = heads.iter().map(|head| head.to_string()).collect();
    let mut text = line(&heads);
    text.push_str(&format!("|---|{}\n", "---:|".repeat(heads.len() - 1)));
    for row in rows {
        text.push_str(&line(&row));
    }
    text
}
