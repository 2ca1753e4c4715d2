//! What the test programs print.

/// A text for the eye: its length and its first bytes.
pub fn shown(text: &[u8]) -> String {
    let first = &text[..text.len().min(400)];
    format!("{} bytes, {}", text.len(), first.escape_ascii())
}

/// How often each code was met.
pub fn codes_met(by_code: &[usize]) -> String {
    let met = by_code.iter().enumerate();
    let met: Vec<String> = met.map(|(code, n)| format!("{code}: {n}")).collect();
    met.join(", ")
}
