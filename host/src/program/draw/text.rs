//! Numbers and text in XML.

use super::colours::QUIET;

/// A number of pixels with at most two decimals, which are enough for any screen.
pub fn number(value: f64) -> String {
    let text = format!("{:.2}", value + 0.0);
    let short = text.trim_end_matches('0').trim_end_matches('.');
    match short {
        "-0" => "0".to_string(),
        _ => short.to_string(),
    }
}

/// A count with commas between thousands.
pub fn count(value: usize) -> String {
    let digits = value.to_string();
    let comma = |place: usize| place > 0 && (digits.len() - place).is_multiple_of(3);
    digits
        .chars()
        .enumerate()
        .flat_map(|(place, digit)| comma(place).then_some(',').into_iter().chain([digit]))
        .collect()
}

/// A count with its noun.
pub fn counted(value: usize, one: &str, many: &str) -> String {
    format!("{} {}", count(value), if value == 1 { one } else { many })
}

/// Any text as XML: marks get their names, and what XML has no room for becomes a replacement character.
pub fn escaped(text: &str) -> String {
    text.chars().map(escape).collect()
}

fn escape(letter: char) -> String {
    match letter {
        '&' => "&amp;".to_string(),
        '<' => "&lt;".to_string(),
        '>' => "&gt;".to_string(),
        '"' => "&quot;".to_string(),
        '\t' | '\n' | '\r' => " ".to_string(),
        '\0'..='\u{1f}' | '\u{fffe}' | '\u{ffff}' => '\u{fffd}'.to_string(),
        _ => letter.to_string(),
    }
}

/// The width of digits of this size. Fonts differ; in the widest sans-serif ones a digit has 0.64 of the size.
pub fn width(text: &str, size: f64) -> f64 {
    0.64 * size * text.chars().count() as f64
}

/// A line of text that explains, from x on.
pub fn line(x: f64, y: f64, size: u32, text: &str) -> String {
    let (x, y, text) = (number(x), number(y), escaped(text));
    format!("<text x=\"{x}\" y=\"{y}\" font-size=\"{size}\" fill=\"{QUIET}\">{text}</text>\n")
}

#[cfg(test)]
mod tests {
    use super::*;

    #[test]
    fn numbers_have_two_decimals_at_most() {
        assert_eq!([0.0, -0.001, 12.0, 1.5, 2.346, 100.0].map(number), ["0", "0", "12", "1.5", "2.35", "100"]);
    }

    #[test]
    fn counts_have_commas() {
        assert_eq!([0, 999, 1000, 4_294_967_295].map(count), ["0", "999", "1,000", "4,294,967,295"]);
        assert_eq!(counted(1, "cut", "cuts"), "1 cut");
        assert_eq!(counted(0, "cut", "cuts"), "0 cuts");
    }

    #[test]
    fn any_text_is_escaped() {
        assert_eq!(escaped("<a href=\"x\">&\n\u{1}\u{ffff}'"), "&lt;a href=&quot;x&quot;&gt;&amp; \u{fffd}\u{fffd}'");
    }
}
