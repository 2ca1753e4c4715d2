//! Bytes as text that a terminal can show.

/// A byte as itself if it is printable ASCII, else as `\xNN`.
pub fn escaped_byte(byte: u8) -> String {
    match byte {
        32..=126 => (byte as char).to_string(),
        _ => format!("\\x{byte:02X}"),
    }
}

/// Bytes in the same way, but for letters in UTF-8, which are shown as they are.
pub fn escaped(bytes: &[u8]) -> String {
    let mut shown = String::new();
    for chunk in bytes.utf8_chunks() {
        for letter in chunk.valid().chars() {
            match letter {
                '\t' => shown.push_str("    "),
                _ if letter.is_control() => letter.to_string().bytes().for_each(|byte| shown.push_str(&escaped_byte(byte))),
                '\u{200B}'..='\u{200F}' | '\u{2028}'..='\u{202E}' | '\u{2066}'..='\u{2069}' | '\u{FEFF}' | '\u{A0}' => {
                    letter.to_string().bytes().for_each(|byte| shown.push_str(&escaped_byte(byte)))
                }
                _ => shown.push(letter),
            }
        }
        chunk.invalid().iter().for_each(|&byte| shown.push_str(&escaped_byte(byte)));
    }
    shown
}

#[cfg(test)]
mod tests {
    use super::escaped;

    #[test]
    fn what_is_no_text_is_escaped() {
        assert_eq!(escaped(b"a\tb\x1b[0m\xff"), "a    b\\x1B[0m\\xFF");
        assert_eq!(escaped("π\u{FEFF}".as_bytes()), "π\\xEF\\xBB\\xBF");
    }
}
