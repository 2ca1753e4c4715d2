//! Verdicts on graphs, and on an operation list alone.

use crate::files::Source;
use crate::json::Json;
use crate::number::counted;
use crate::report::Report;
use crate::texts::Texts;

pub fn check(report: &mut Report, texts: &Texts) {
    match sluicegnome::check(&texts.list.bytes, &texts.subject().bytes) {
        Err(refusal) => report.refused(texts, &refusal),
        Ok(checked) => {
            let (calls, wires) = (checked.calls.len(), checked.wires.len());
            let counts = format!("{}, {}", counted(calls, "call"), counted(wires, "wire"));
            verdict(report, texts, calls, vec![("calls", Json::Number(calls)), ("wires", Json::Number(wires))], &counts);
        }
    }
}

pub fn list_alone(report: &mut Report, list: &Source) {
    let texts = Texts::sole(list);
    match sluicegnome::declarations(&list.bytes) {
        Err(refusal) => report.refused(&texts, &refusal),
        Ok(count) => verdict(report, &texts, count, vec![("operations", Json::Number(count))], &counted(count, "operation")),
    }
}

fn verdict(report: &mut Report, texts: &Texts, count: usize, fields: Vec<(&'static str, Json)>, counts: &str) {
    let words = match report.wordless() {
        true => String::new(),
        false => format!("{}: accepted: {counts}\n", texts.subject().name),
    };
    report.accepted(texts, count, fields, words);
}
