//! What comes from a file, made fit for a terminal: one line, and nothing that moves the cursor or turns the text around.

use std::ffi::OsStr;
use std::os::unix::ffi::OsStrExt;

/// Whether a terminal could take the character for an order, or show it as something else than it is: control characters, C1 among them,
/// line and paragraph separators, marks that turn the direction of writing, and characters without a width.
fn is_order(c: char) -> bool {
    c.is_control()
        || matches!(c, '\u{2028}' | '\u{2029}' | '\u{200B}'..='\u{200F}' | '\u{202A}'..='\u{202E}' | '\u{2060}'..='\u{2069}' | '\u{FEFF}')
}

/// The bytes as one line of text: what is no UTF-8, and what a terminal would obey, as \xNN or \u{NNNN}; a backslash doubled.
pub fn escaped(bytes: &[u8]) -> String {
    let mut text = String::new();
    for chunk in bytes.utf8_chunks() {
        for c in chunk.valid().chars() {
            match c {
                '\\' => text.push_str("\\\\"),
                '\n' => text.push_str("\\n"),
                '\r' => text.push_str("\\r"),
                '\t' => text.push_str("\\t"),
                c if c.is_ascii() && is_order(c) => text.push_str(&format!("\\x{:02x}", c as u32)),
                c if is_order(c) => text.push_str(&format!("\\u{{{:04x}}}", c as u32)),
                c => text.push(c),
            }
        }
        for byte in chunk.invalid() {
            text.push_str(&format!("\\x{byte:02x}"));
        }
    }
    text
}

/// A value between quotes, so that its end is seen.
pub fn quoted(bytes: &[u8]) -> String {
    format!("'{}'", escaped(bytes).replace('\'', "\\'"))
}

/// The name of a file.
pub fn escaped_name(name: &OsStr) -> String {
    escaped(name.as_bytes())
}

/// As many characters of a line as a terminal is wide; the last is then an ellipsis.
pub fn cut(line: &str, width: Option<usize>) -> String {
    match width {
        Some(width) if line.chars().count() > width => line.chars().take(width.saturating_sub(1)).chain(['…']).collect(),
        _ => line.to_string(),
    }
}

#[cfg(test)]
mod tests {
    use super::{cut, escaped, quoted};

    #[test]
    fn orders_are_written_out() {
        assert_eq!(escaped(b"a\x1b[2Jb\nc\\"), "a\\x1b[2Jb\\nc\\\\");
        assert_eq!(escaped("\u{9b}1m \u{202e}".as_bytes()), "\\u{009b}1m \\u{202e}");
        assert_eq!(escaped(b"\xc5s \x7f"), "\\xc5s \\x7f");
        assert_eq!(escaped("Åström".as_bytes()), "Åström");
        assert_eq!(quoted(b"it's"), "'it\\'s'");
    }

    #[test]
    fn long_lines_are_cut() {
        assert_eq!(cut("abcdef", Some(4)), "abc…");
        assert_eq!(cut("abcd", Some(4)), "abcd");
        assert_eq!(cut("abcdef", None), "abcdef");
    }
}
