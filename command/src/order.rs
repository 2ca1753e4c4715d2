//! Orders of a graph's calls: the numbers of a file, and the verdict on them.

use crate::escape::escaped;
use crate::files::Source;
use crate::json::Json;
use crate::number::counted;
use crate::report::Report;
use crate::texts::Texts;
use sluicegnome::{Checked, Wire};

/// Call numbers as a file writes them.
pub struct Order<'a> {
    pub source: &'a Source,
    pub numbers: Vec<Number>,
}

/// A call number: the bytes from `start` up to `end`.
pub struct Number {
    pub call: u32,
    pub start: usize,
    pub end: usize,
}

/// What stands where a call number is to stand: the bytes from `start` up to `end`, and what is wrong with them.
pub struct Misspelt {
    pub sentence: String,
    pub start: usize,
    pub end: usize,
}

impl<'a> Order<'a> {
    /// Reads numbers in decimal with white space between them; a comment runs from `#` to the end of its line.
    pub fn read(source: &'a Source) -> Result<Order<'a>, Misspelt> {
        let text = &source.bytes;
        let mut numbers = Vec::new();
        let mut start = 0;
        while start < text.len() {
            let rest = &text[start..];
            let length = match rest[0] {
                b'#' => rest.iter().take_while(|byte| **byte != b'\n').count(),
                byte if is_blank(byte) => 1,
                _ => {
                    let length = rest.iter().take_while(|byte| !is_blank(**byte) && **byte != b'#').count();
                    numbers.push(number(text, start, start + length)?);
                    length
                }
            };
            start += length;
        }
        Ok(Order { source, numbers })
    }

    /// The numbers alone.
    pub fn calls(&self) -> Vec<u32> {
        self.numbers.iter().map(|number| number.call).collect()
    }

    /// The bytes of the number at a place; none at the file's end, if there is no such number.
    pub fn bounds(&self, place: usize) -> (usize, usize) {
        let end = self.source.bytes.len();
        self.numbers.get(place).map_or((end, end), |number| (number.start, number.end))
    }
}

/// White space as in a text: the bytes 9 to 13 and 32.
fn is_blank(byte: u8) -> bool {
    matches!(byte, 9..=13 | 32)
}

fn number(text: &[u8], start: usize, end: usize) -> Result<Number, Misspelt> {
    let word = &text[start..end];
    let shown = escaped(word);
    let digits = word.iter().all(u8::is_ascii_digit);
    let misspelt = |sentence| Misspelt { sentence, start, end };
    match shown.parse() {
        Ok(call) if digits => Ok(Number { call, start, end }),
        _ if digits => Err(misspelt(format!("`{shown}` is greater than {}, the greatest number of 32 bits", u32::MAX))),
        _ => Err(misspelt(format!("`{shown}` is no call number"))),
    }
}

/// Says whether an order of a graph's calls is right.
pub fn judge(report: &mut Report, list: &Source, document: &Source, source: &Source) {
    let order = match Order::read(source) {
        Err(misspelt) => return report.misspelt(source, &misspelt),
        Ok(order) => order,
    };
    let texts = Texts::pair(list, document).with_order(&order);
    match sluicegnome::order(&list.bytes, &document.bytes, &order.calls()) {
        Err(refusal) => report.refused(&texts, &refusal),
        Ok(count) => {
            let words = match report.wordless() {
                true => String::new(),
                false => {
                    let calls = counted(count, "call");
                    format!("{}: accepted: the {calls} of {}, each once and after what it uses\n", source.name, document.name)
                }
            };
            report.accepted(&texts, count, vec![("order", Json::text(&source.name)), ("calls", Json::Number(count))], words);
        }
    }
}

/// For each call of a graph its uses.
pub fn uses(checked: &Checked) -> Vec<&[Wire]> {
    let mut rest = &checked.wires[..];
    let mut uses = Vec::new();
    for call in &checked.calls {
        let (own, behind) = rest.split_at(call.used);
        uses.push(own);
        rest = behind;
    }
    uses
}

#[cfg(test)]
mod tests {
    use super::Order;
    use crate::files::Source;

    /// The numbers of a text, or the start and end of what is none.
    fn read(text: &[u8]) -> Result<Vec<u32>, (usize, usize)> {
        let source = Source { name: String::new(), bytes: text.to_vec() };
        let read = Order::read(&source);
        read.map(|order| order.calls()).map_err(|misspelt| (misspelt.start, misspelt.end))
    }

    #[test]
    fn numbers_are_read() {
        assert_eq!(read(b""), Ok(vec![]));
        assert_eq!(read(b"# 1 2\n"), Ok(vec![]));
        assert_eq!(read(b"0 1\t2\r\n3\x0b4\x0c5#6\n007"), Ok(vec![0, 1, 2, 3, 4, 5, 7]));
        assert_eq!(read(b"4294967295"), Ok(vec![u32::MAX]));
        assert_eq!(read(b"00000000000000000000001 # \xff"), Ok(vec![1]));
    }

    #[test]
    fn what_is_no_number_is_found() {
        assert_eq!(read(b"0 4294967296"), Err((2, 12)));
        assert_eq!(read(b"0 1,2"), Err((2, 5)));
        assert_eq!(read(b"0 +1"), Err((2, 4)));
        assert_eq!(read(b"-1"), Err((0, 2)));
        assert_eq!(read(b"1 2.0"), Err((2, 5)));
        assert_eq!(read(b"0\xa01 2"), Err((0, 3)));
    }
}
