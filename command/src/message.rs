//! Refusals as people read them: file, line and column, a sentence, the source line with a caret, cause and help.

use crate::escape::escaped;
use crate::files::Source;
use crate::hints::Hint;
use crate::order::Misspelt;
use crate::place::{line_bounds, place};
use crate::texts::Texts;
use sluicegnome::Refusal;

/// Where a fault comes from, when more than the first is shown.
#[derive(Clone, Copy, PartialEq, Eq)]
pub enum Origin {
    /// The library's answer.
    Library,
    /// The library's answer, shown before others of the command's own reading.
    First,
    /// The command's own reading.
    Reading,
}

/// The longest source line that is shown whole, and how much is shown around the caret of a longer one.
const WIDEST: usize = 150;

pub struct Painter {
    pub color: bool,
}

impl Painter {
    fn paint(&self, style: &str, words: &str) -> String {
        match self.color {
            true => format!("\x1b[{style}m{words}\x1b[0m"),
            false => words.to_string(),
        }
    }

    /// The whole message of a fault.
    pub fn message(&self, texts: &Texts, fault: &Refusal, hint: &Hint, origin: Origin) -> String {
        let code = self.paint("1;31", &format!("error[E{}]", fault.code.number()));
        let mark = match origin {
            Origin::Library => "",
            Origin::First => " (the library's answer, proved to be the first fault)",
            Origin::Reading => " (a second reading, not proved)",
        };
        let sentence = self.paint("1", &hint.sentence);
        let mut message = match texts.pointed(fault) {
            None => format!("{}: {code}: {sentence}{mark}\n", texts.subject().name),
            Some((source, position)) => {
                let at = place(&source.bytes, position);
                let head = format!("{}:{}:{}: {code}: {sentence}{mark}\n", source.name, at.line, at.column);
                head + &self.excerpt(&source.bytes, position, hint.length)
            }
        };
        message += &format!("  {} {}\n", self.paint("36", "cause:"), hint.cause);
        for help in &hint.help {
            message += &format!("  {} {help}\n", self.paint("32", "help:"));
        }
        message
    }

    /// The whole message of what stands in an order and is no number.
    pub fn misspelt(&self, source: &Source, misspelt: &Misspelt) -> String {
        let Misspelt { sentence, start, end } = misspelt;
        let at = place(&source.bytes, *start);
        let (error, sentence) = (self.paint("1;31", "error"), self.paint("1", sentence));
        let head = format!("{}:{}:{}: {error}: {sentence}\n", source.name, at.line, at.column);
        let help = "write call numbers in decimal, with white space between them; `#` begins a comment";
        head + &self.excerpt(&source.bytes, *start, end - start) + &format!("  {} {help}\n", self.paint("32", "help:"))
    }

    /// The source line, and carets under what is at fault. Before a blank line stands the last one that is not blank.
    fn excerpt(&self, text: &[u8], position: usize, length: usize) -> String {
        let number = place(text, position).line;
        let margin = number.to_string().len().max(4);
        let row = |label: &str, shown: &str| format!("{label:>margin$} | {shown}\n");
        let (start, end) = line_bounds(text, position);
        let mut excerpt = String::new();
        if text[start..end].trim_ascii().is_empty() {
            excerpt += &last_line(&text[..start]).map_or(String::new(), |(number, shown)| row(&number.to_string(), &shown));
        }
        let (shown, indent, width) = marked(&text[start..end], position - start, length);
        excerpt += &row(&number.to_string(), &shown);
        excerpt += &row("", &format!("{}{}", " ".repeat(indent), self.paint("1;31", &"^".repeat(width))));
        excerpt
    }
}

/// The last line of a text that is not blank, with its number.
fn last_line(text: &[u8]) -> Option<(usize, String)> {
    let last = text.trim_ascii_end().len().checked_sub(1)?;
    let (start, _) = line_bounds(text, last);
    let (shown, _) = clipped(&escaped(&text[start..=last]), 0);
    Some((place(text, last).line, shown))
}

/// A line as it is shown, and where and how wide in it so many bytes from a position on are.
fn marked(line: &[u8], position: usize, length: usize) -> (String, usize, usize) {
    let line = line.strip_suffix(b"\r").unwrap_or(line);
    let position = position.min(line.len());
    let end = (position + length).min(line.len());
    let width = |bytes: &[u8]| escaped(bytes).chars().count();
    let (shown, indent) = clipped(&escaped(line), width(&line[..position]));
    let room = WIDEST.saturating_sub(indent).max(1);
    (shown, indent, width(&line[position..end]).clamp(1, room))
}

/// A line of at most so many letters around a column, and where the column is in it.
fn clipped(line: &str, column: usize) -> (String, usize) {
    let length = line.chars().count();
    if length <= WIDEST {
        return (line.to_string(), column);
    }
    let from = column.saturating_sub(WIDEST / 2).min(length - WIDEST);
    let part: String = line.chars().skip(from).take(WIDEST).collect();
    let before = if from > 0 { "..." } else { "" };
    let after = if from + WIDEST < length { "..." } else { "" };
    (format!("{before}{part}{after}"), column - from + before.len())
}
