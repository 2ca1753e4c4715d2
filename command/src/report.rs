//! What a run says: the bytes of standard output, the messages, and the exit status.

use crate::arguments::{Arguments, Color};
use crate::faults;
use crate::files::{self, Source, Trouble};
use crate::hints::hint;
use crate::json::Json;
use crate::message::{Origin, Painter};
use crate::model::{Failure, Graph};
use crate::number::counted;
use crate::order::Misspelt;
use crate::place::place;
use crate::texts::Texts;
use sluicegnome::Refusal;
use std::io::{IsTerminal, Write};
use std::path::Path;

pub const ACCEPTED: u8 = 0;
pub const REFUSED: u8 = 1;
pub const USAGE: u8 = 2;
pub const TROUBLE: u8 = 3;
pub const EITHER_REFUSED: u8 = 4;

/// More faults than these are only counted.
const MOST_SHOWN: usize = 100;

pub struct Report<'a> {
    pub arguments: &'a Arguments,
    pub out: Vec<u8>,
    pub messages: String,
    pub status: u8,
    painter: Painter,
}

impl<'a> Report<'a> {
    pub fn new(arguments: &'a Arguments) -> Report<'a> {
        let color = match arguments.color {
            Color::Always => true,
            Color::Never => false,
            Color::Auto => std::io::stderr().is_terminal() && std::env::var_os("NO_COLOR").is_none(),
        };
        Report { arguments, out: Vec::new(), messages: String::new(), status: ACCEPTED, painter: Painter { color } }
    }

    pub fn raise(&mut self, status: u8) {
        self.status = self.status.max(status);
    }

    pub fn print(&mut self, text: &str) {
        self.out.extend_from_slice(text.as_bytes());
    }

    /// Something that could not be read or written.
    pub fn trouble(&mut self, trouble: &Trouble) {
        self.raise(TROUBLE);
        self.messages += &format!("nnef: {}\n", trouble.0);
    }

    /// An order that cannot be read: something in it is no number.
    pub fn misspelt(&mut self, source: &Source, misspelt: &Misspelt) {
        self.raise(TROUBLE);
        self.messages += &self.painter.misspelt(source, misspelt);
    }

    /// What a reading makes of an accepted document; a refusal is reported.
    pub fn graph(&mut self, texts: &Texts, reading: impl Fn(&Texts) -> Result<Graph, Failure>) -> Option<Graph> {
        match reading(texts) {
            Ok(graph) => return Some(graph),
            Err(Failure::Refused(refusal)) => self.refused(texts, &refusal),
            Err(Failure::Defect) => {
                let name = &texts.subject().name;
                self.trouble(&Trouble(format!("a defect of this command: it cannot read {name}, which the library accepts")));
            }
        }
        None
    }

    /// Like `accepted`, but that the words go to the file that -o names, if it names one.
    pub fn made(&mut self, texts: &Texts, count: usize, fields: Vec<(&'static str, Json)>, words: &[u8]) {
        match &self.arguments.out {
            None => self.accepted(texts, count, fields, words),
            Some(out) => match files::write(Path::new(out), words) {
                Ok(()) => self.accepted(texts, count, fields, ""),
                Err(trouble) => self.trouble(&trouble),
            },
        }
    }

    /// A text that is accepted with this count: the numbers, the fields of a JSON object, or the words, whichever is asked for.
    pub fn accepted(&mut self, texts: &Texts, count: usize, fields: Vec<(&'static str, Json)>, words: impl AsRef<[u8]>) {
        if self.arguments.numbers {
            self.print(&format!("0 0 0 {count}\n"));
        } else if self.arguments.json {
            self.json(texts, "accepted", [0, 0, 0, count as u32], fields);
        } else {
            self.out.extend_from_slice(words.as_ref());
        }
    }

    /// Whether nothing is to be said in words.
    pub fn wordless(&self) -> bool {
        self.arguments.quiet || self.arguments.numbers || self.arguments.json
    }

    /// A text that is refused.
    pub fn refused(&mut self, texts: &Texts, refusal: &Refusal) {
        self.raise(REFUSED);
        let further = match self.arguments.all {
            true => faults::further(texts, refusal),
            false => Vec::new(),
        };
        if self.arguments.numbers {
            let [code, text, position, detail] = refusal.numbers();
            self.print(&format!("{code} {text} {position} {detail}\n"));
        } else if self.arguments.json {
            let shown = further.iter().take(MOST_SHOWN).map(|fault| fault_json(texts, fault, false));
            let faults = Json::list(std::iter::once(fault_json(texts, refusal, true)).chain(shown));
            self.json(texts, "refused", refusal.numbers(), vec![("faults", faults), ("further", Json::Number(further.len()))]);
        } else if !self.wordless() {
            self.say_faults(texts, refusal, &further);
        }
    }

    fn say_faults(&mut self, texts: &Texts, first: &Refusal, further: &[Refusal]) {
        let origin = if self.arguments.all { Origin::First } else { Origin::Library };
        let message = self.painter.message(texts, first, &hint(texts, first), origin);
        // A fault of the list is said once, for however many files.
        if self.messages.contains(&message) {
            return;
        }
        self.messages += &message;
        if !self.arguments.all {
            return;
        }
        for fault in further.iter().take(MOST_SHOWN) {
            self.messages += &self.painter.message(texts, fault, &hint(texts, fault), Origin::Reading);
        }
        let more = counted(further.len(), "more fault");
        let subject = texts.order.map_or(texts.subject(), |order| order.source);
        self.messages += &format!("{}: {more} of the same stage, by a second reading that is not proved\n", subject.name);
    }

    fn json(&mut self, texts: &Texts, verdict: &str, numbers: [u32; 4], fields: Vec<(&'static str, Json)>) {
        let mut object = vec![
            ("file", Json::text(&texts.subject().name)),
            ("verdict", Json::text(verdict)),
            ("numbers", Json::list(numbers.map(|number| Json::Number(number as usize)))),
        ];
        object.extend(fields);
        self.print(&format!("{}\n", Json::Object(object)));
    }
}

/// Writes what a run has to say, and gives its exit status.
pub fn finish(mut report: Report) -> u8 {
    if !report.out.is_empty() {
        if let Err(trouble) = files::write_standard_output(&report.out) {
            report.trouble(&trouble);
            report.status = TROUBLE;
        }
    }
    // Where messages cannot be written, only the status is left to say it.
    let _ = std::io::stderr().write_all(report.messages.as_bytes());
    report.status
}

fn fault_json(texts: &Texts, fault: &Refusal, proved: bool) -> Json {
    let words = hint(texts, fault);
    let mut fields = vec![("code", Json::Number(fault.code.number() as usize)), ("name", Json::text(fault.code.name()))];
    if let Some((source, position)) = texts.pointed(fault) {
        let at = place(&source.bytes, position);
        fields.extend([
            ("file", Json::text(&source.name)),
            ("position", Json::Number(position)),
            ("line", Json::Number(at.line)),
            ("column", Json::Number(at.column)),
        ]);
    }
    if fault.code.is_of_order() {
        fields.push(("place", Json::Number(fault.position)));
    }
    fields.extend([
        ("sentence", Json::text(words.sentence)),
        ("cause", Json::text(words.cause)),
        ("help", Json::texts(words.help)),
        ("proved", Json::Flag(proved)),
    ]);
    Json::Object(fields)
}
