//! What has likely happened to a refused file. Each sentence says what was looked at, and no more.

use crate::input::Input;
use crate::units::Units;

/// A likely cause, where one can be told.
pub fn likely(file: &Input, units: &Units, start: usize) -> Option<String> {
    let bytes = &file.bytes[..];
    if bytes.is_empty() {
        return Some("The file is empty.".to_string());
    }
    by_front(bytes)
        .or_else(|| by_mending(bytes))
        .or_else(|| by_mark(bytes, start))
        .or_else(|| by_length(file))
        .or_else(|| by_letters(bytes, units))
}

/// Files of other kinds, by how they begin.
fn by_front(bytes: &[u8]) -> Option<String> {
    let text = bytes.strip_prefix(b"\xEF\xBB\xBF").unwrap_or(bytes);
    let kinds: [(&[u8], &str); 6] = [
        (b"\x1F\x8B", "The file begins as one that gzip has compressed: unpack it first."),
        (b"PK\x03\x04", "The file begins as a ZIP archive: unpack it first."),
        (b"0 HEAD", "The file begins as GEDCOM text, which is another format."),
        (b"<", "The file begins with '<', as XML or a page of the web does."),
        (b"{", "The file begins with '{', as JSON does."),
        (b"%PDF", "The file begins as a PDF."),
    ];
    kinds.iter().find(|(front, _)| text.starts_with(front)).map(|(_, words)| words.to_string())
}

/// Changes that can be undone: with them undone the check accepts.
fn by_mending(bytes: &[u8]) -> Option<String> {
    let accepted = |mended: &[u8]| cdf::check(mended).is_ok();
    for (end, what) in [(&b"\r\n"[..], "CR LF"), (b"\n", "a line feed"), (b"\r", "a carriage return"), (b"\0", "a zero byte")] {
        if bytes.strip_suffix(end).is_some_and(accepted) {
            return Some(format!("Behind the stream stands {what}: without it the file is accepted."));
        }
    }
    if bytes.strip_prefix(b"\xEF\xBB\xBF").is_some_and(accepted) {
        return Some("The file begins with a byte order mark, EF BB BF: without it the file is accepted.".to_string());
    }
    if accepted(&replaced(bytes, b"\r\n", b"\n", |_| false)) {
        return Some("Line feeds were changed to CR LF, as a transfer of text does: changed back, the file is accepted.".to_string());
    }
    // A line feed behind CD F1 00 is a length of ten.
    let ten = |before: &[u8]| before.ends_with(b"\xCD\xF1\0");
    if accepted(&replaced(bytes, b"\n", b"\r\n", |_| false)) || accepted(&replaced(bytes, b"\n", b"\r\n", ten)) {
        return Some("CR LF was changed to line feeds, as a transfer of text does: changed back, the file is accepted.".to_string());
    }
    if from_utf8(bytes).is_some_and(|mended| accepted(&mended)) {
        return Some("The file was changed from Latin-1 to UTF-8, its marks and lengths too: changed back, it is accepted.".to_string());
    }
    None
}

/// What became of a mark.
fn by_mark(bytes: &[u8], start: usize) -> Option<String> {
    let here = bytes.get(start..)?;
    if here.starts_with(b"\xC3\x8D\xC3\xB1") {
        return Some("The mark CD F1 stands here as UTF-8, C3 8D C3 B1: the file was changed from Latin-1 to UTF-8.".to_string());
    }
    here.starts_with(b"\x4D\x71").then(|| "The mark CD F1 stands here as 4D 71: the high bits of these two bytes were lost.".to_string())
}

fn by_length(file: &Input) -> Option<String> {
    if file.is_long() {
        return Some("The file is larger than 65,535 bytes, which is the most that a stream can have.".to_string());
    }
    let bytes = &file.bytes;
    let stated = usize::from(u16::from_be_bytes([*bytes.get(2)?, *bytes.get(3)?]));
    if !bytes.starts_with(b"\xCD\xF1") || stated == bytes.len() {
        return None;
    }
    let differs = stated.abs_diff(bytes.len());
    let of = plural(differs, "byte");
    Some(match stated > bytes.len() {
        true => format!("The file was cut, or bytes in it were lost: it is {differs} {of} shorter than it states."),
        false => format!("Bytes were added, or the stated length is wrong: the file is {differs} {of} longer than it states."),
    })
}

/// A value that ends inside a character of UTF-8, where the rest of that character stands behind it.
fn by_letters(bytes: &[u8], units: &Units) -> Option<String> {
    let unit = units.all.last()?;
    let value = unit.value()?;
    let cut = std::str::from_utf8(value).is_err_and(|error| error.error_len().is_none());
    let behind = bytes.get(unit.end()).is_some_and(|byte| (0x80..0xC0).contains(byte));
    (cut && behind).then(|| {
        let (start, end) = (unit.start(), unit.end() - 1);
        format!("The unit from byte {start} to {end} ends inside a letter of several bytes: its length may count letters, where it should count bytes.")
    })
}

/// 'byte' or 'bytes'.
pub fn plural(count: usize, word: &str) -> String {
    if count == 1 {
        word.to_string()
    } else {
        format!("{word}s")
    }
}

/// The bytes with another part in each place of a part, but where `stays` says so of what stands before it.
fn replaced(bytes: &[u8], old: &[u8], new: &[u8], stays: impl Fn(&[u8]) -> bool) -> Vec<u8> {
    let (mut made, mut rest) = (Vec::with_capacity(bytes.len()), bytes);
    while let Some(first) = rest.first() {
        match rest.strip_prefix(old).filter(|_| !stays(&made)) {
            Some(behind) => {
                made.extend_from_slice(new);
                rest = behind;
            }
            None => {
                made.push(*first);
                rest = &rest[1..];
            }
        }
    }
    made
}

/// The bytes whose values are the characters of a text, if all are below 256.
fn from_utf8(bytes: &[u8]) -> Option<Vec<u8>> {
    std::str::from_utf8(bytes).ok()?.chars().map(|c| u8::try_from(c as u32).ok()).collect()
}
