//! A file's name as messages show it: what would move a terminal's cursor or turn its text around is escaped.
use std::os::unix::ffi::OsStrExt;
use std::path::Path;

pub fn shown(path: &Path) -> String {
    if is_standard_input(path) {
        return "standard input".to_string();
    }
    escaped(path.as_os_str().as_bytes())
}

pub fn is_standard_input(path: &Path) -> bool {
    path == Path::new("-")
}

/// Bytes as text: control characters, marks of direction and bytes that are no text stand as escapes.
pub fn escaped(mut bytes: &[u8]) -> String {
    let mut text = String::new();
    while !bytes.is_empty() {
        let (good, bad) = match std::str::from_utf8(bytes) {
            Ok(good) => (good, 0),
            Err(error) => {
                let good = std::str::from_utf8(&bytes[..error.valid_up_to()]).unwrap_or_default();
                (good, error.error_len().unwrap_or(bytes.len() - good.len()))
            }
        };
        good.chars().for_each(|c| if hidden(c) { text.extend(c.escape_default()) } else { text.push(c) });
        bytes[good.len()..good.len() + bad].iter().for_each(|byte| text.push_str(&format!("\\x{:02x}", byte)));
        bytes = &bytes[good.len() + bad..];
    }
    text
}

/// Control characters, and those that show nothing or turn the direction of the text.
fn hidden(c: char) -> bool {
    c.is_control() || matches!(c, '\u{200b}'..='\u{200f}' | '\u{2028}'..='\u{202e}' | '\u{2060}'..='\u{206f}' | '\u{feff}')
}

#[cfg(test)]
mod tests {
    use super::*;

    #[test]
    fn what_cannot_be_seen_is_escaped() {
        assert_eq!(escaped(b"a\n\x1b[2J b"), "a\\n\\u{1b}[2J b");
        assert_eq!(escaped("ä\u{202e}x".as_bytes()), "ä\\u{202e}x");
        assert_eq!(escaped(b"a\xffb\xc3"), "a\\xffb\\xc3");
        assert_eq!(shown(Path::new("-")), "standard input");
    }
}
