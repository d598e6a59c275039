//! Texts that have to fit.

/// A text for SVG. What XML has no place for is left out.
pub fn escaped(text: &str) -> String {
    let mut escaped = String::new();
    for c in text.chars() {
        match c {
            '&' => escaped += "&amp;",
            '<' => escaped += "&lt;",
            '>' => escaped += "&gt;",
            c if c.is_control() => escaped.push(' '),
            c => escaped.push(c),
        }
    }
    escaped
}

/// A text cut to a number of characters.
pub fn cut(text: &str, room: usize) -> String {
    if text.chars().count() <= room {
        return text.to_owned();
    }
    let start: String = text.chars().take(room.saturating_sub(2)).collect();
    start + ".."
}

/// A name in lines that break after its hyphens.
pub fn hyphenated(name: &str, room: usize) -> Vec<String> {
    fold(name.split_inclusive('-'), room)
}

/// A text in lines that break at blanks.
pub fn folded(text: &str, room: usize) -> Vec<String> {
    let lines = fold(text.split_inclusive(' '), room);
    lines
        .iter()
        .map(|line| line.trim_end().to_owned())
        .collect()
}

/// Parts put together as long as they fit; a part that is too long alone stays so.
fn fold<'t>(parts: impl Iterator<Item = &'t str>, room: usize) -> Vec<String> {
    let mut lines: Vec<String> = Vec::new();
    for part in parts {
        let length = part.trim_end().chars().count();
        match lines.last_mut() {
            Some(line) if line.chars().count() + length <= room => line.push_str(part),
            _ => lines.push(part.to_owned()),
        }
    }
    lines
}

#[cfg(test)]
mod tests {
    use super::*;

    #[test]
    fn texts_fit() {
        assert_eq!(cut("stream 1", 8), "stream 1");
        assert_eq!(cut("stream 12", 8), "stream..");
        assert_eq!(cut("stream", 0), "..");
        assert_eq!(hyphenated("not-primary", 11), ["not-primary"]);
        assert_eq!(hyphenated("rows-not-allowed", 9), ["rows-not-", "allowed"]);
        assert_eq!(folded("a bc def", 4), ["a bc", "def"]);
        assert_eq!(folded("abcdef a", 3), ["abcdef", "a"]);
    }

    #[test]
    fn texts_are_xml() {
        assert_eq!(escaped("a<b>&\"\u{1}"), "a&lt;b&gt;&amp;\" ");
    }
}
