//! The canonical text, and whether a file is canonical.

use crate::json::Json;
use crate::place::place;
use crate::report::{Report, REFUSED};
use crate::texts::Texts;

pub fn canon(report: &mut Report, texts: &Texts) {
    match sluicegnome::canon(&texts.list.bytes, &texts.subject().bytes) {
        Err(refusal) => report.refused(texts, &refusal),
        Ok(text) => {
            let fields = vec![("canonical", Json::text(String::from_utf8_lossy(&text)))];
            report.made(texts, text.len(), fields, &text);
        }
    }
}

/// Names the file if it is not canonical, and says where that begins.
pub fn fmt(report: &mut Report, texts: &Texts) {
    let source = texts.subject();
    let text = match sluicegnome::canon(&texts.list.bytes, &source.bytes) {
        Err(refusal) => return report.refused(texts, &refusal),
        Ok(text) => text,
    };
    let canonical = text == source.bytes;
    let named = !canonical && !report.wordless();
    let words = if named { format!("{}\n", source.name) } else { String::new() };
    report.accepted(texts, text.len(), vec![("canonical", Json::Flag(canonical))], words);
    if !canonical {
        report.raise(REFUSED);
    }
    if named {
        let first = text.iter().zip(&source.bytes).take_while(|(one, other)| one == other).count();
        let at = place(&source.bytes, first);
        let windows = if source.bytes.get(first) == Some(&b'\r') { "; it has Windows line ends" } else { "" };
        report.messages += &format!("{}:{}:{}: not canonical from here on{windows}\n", source.name, at.line, at.column);
    }
}
