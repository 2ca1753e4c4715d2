//! What each code means: where its place points, the likely cause, and the mend.

use crate::json::Json;
use crate::number::{GREATEST_EXPONENT, MOST_DIGITS};
use crate::report::{Report, USAGE};
use sluicegnome::{limits, Code};

pub struct Explanation {
    /// What the line and column point to.
    pub place: &'static str,
    pub cause: String,
    pub mend: String,
}

fn explained(place: &'static str, cause: impl Into<String>, mend: impl Into<String>) -> Explanation {
    Explanation { place, cause: cause.into(), mend: mend.into() }
}

/// Explains the code that the command line names.
pub fn explain(report: &mut Report, word: &str) {
    let Some(code) = code_of(word) else {
        report.raise(USAGE);
        report.messages += &format!("nnef: there is no code {word}; codes are 0 to 26 and 41 to 44\n");
        return;
    };
    let explained = explanation(code);
    let (number, name, text) = (code.number(), code.name(), code.text());
    if report.arguments.json {
        let object = Json::Object(vec![
            ("code", Json::Number(number as usize)),
            ("name", Json::text(name)),
            ("text", Json::text(text)),
            ("place", Json::text(explained.place)),
            ("cause", Json::text(explained.cause)),
            ("mend", Json::text(explained.mend)),
        ]);
        report.print(&format!("{object}\n"));
        return;
    }
    let (place, cause, mend) = (explained.place, explained.cause, explained.mend);
    report.print(&format!("E{number} {name}: {text}\n  place: {place}\n  cause: {cause}\n  mend:  {mend}\n"));
}

/// The code with this number or name: `15`, `E15`, `e15` or `UNDECLARED`.
fn code_of(word: &str) -> Option<Code> {
    let number = word.strip_prefix(['E', 'e']).unwrap_or(word);
    if let Ok(number) = number.parse() {
        return Code::from_number(number);
    }
    Code::ALL.iter().copied().find(|code| code.name().eq_ignore_ascii_case(word))
}

pub fn explanation(code: Code) -> Explanation {
    match code.number() {
        0..=8 => of_bytes(code),
        9 | 10 => of_syntax(code),
        11..=14 => of_headers(code),
        15..=20 => of_calls(code),
        21..=24 => of_wiring(code),
        25 | 26 => of_canonical_text(code),
        _ => of_order(code),
    }
}

fn of_bytes(code: Code) -> Explanation {
    match code {
        Code::Accepted => explained("nowhere", "the text obeys all rules", "nothing is to be mended"),
        Code::LentTooShort => explained(
            "no text",
            "a program lends the library a table or work area with fewer words than `nnef.h` names",
            "lend the words that the header names; the command always does, so it never shows this code",
        ),
        Code::TextTooLong => explained(
            "the first byte beyond",
            "the file is no flat graph or operation list, or holds more than one text may",
            "leave out comments and blanks, or divide the list or the graph",
        ),
        Code::NoToken => explained(
            "the byte",
            "the file is not plain ASCII text, or a character is used that flat NNEF does not have",
            "remove the byte, or write what it stands for; only comments may hold any bytes",
        ),
        Code::NumberMisspelt => explained(
            "the number's first digit",
            "a point or an exponent without digits, or a name that begins with a digit",
            "write digits on both sides of a point and behind an exponent: `1.0`, `1e5`",
        ),
        Code::BadString => explained(
            "the opening quote",
            "the closing quote is missing or of the other kind, or the string holds a letter that is not ASCII",
            "close the string with the quote that opened it, in the same line; there are no escapes",
        ),
        Code::TokenTooLong => explained(
            "the token's first byte",
            format!(
                "a name has more than {} bytes, a number more than {}, or a string more than {} between its quotes",
                limits::NAME_BYTES,
                limits::NUMBER_BYTES,
                limits::STRING_BYTES
            ),
            "shorten it",
        ),
        Code::OutOfRange => explained(
            "the number's first digit",
            format!("a number has more than {MOST_DIGITS} significant digits, or is too large or too small"),
            format!(
                "round it to {MOST_DIGITS} digits; with them as a whole number the power of ten lies between -{GREATEST_EXPONENT} and \
                 {GREATEST_EXPONENT}"
            ),
        ),
        _ => explained(
            "the first token beyond",
            "the text holds more than one graph may",
            "divide the list or the graph; commas and brackets count as tokens",
        ),
    }
}

fn of_syntax(code: Code) -> Explanation {
    match code {
        Code::Syntax => explained(
            "the first token that no valid text has there, or the text's end",
            "a mark, name or bracket is missing or too many just before, or the file is not flat NNEF as chapter 3 has it",
            "compare the line with the grammar in docs/RULES.md",
        ),
        _ => explained(
            "the ninth bracket",
            format!("arrays, tuples or types stand in each other more than {} deep", limits::BRACKETS),
            "use fewer brackets; those of headers and argument lists do not count",
        ),
    }
}

fn of_headers(code: Code) -> Explanation {
    match code {
        Code::Version => explained(
            "the version",
            "the file is of another version, or spells it otherwise",
            "write `version 1.0`, if the file is of that version",
        ),
        Code::TooMany => explained(
            "the first one beyond its size",
            format!(
                "the list has more than {} operations, or one of them more than {} parameters or {} results; or the graph has more than \
                 {} inputs, {} outputs, {} calls, {} identifiers assigned or {} used",
                limits::OPERATIONS,
                limits::PARAMETERS,
                limits::RESULTS,
                limits::INPUTS,
                limits::OUTPUTS,
                limits::CALLS,
                limits::ASSIGNED,
                limits::USES
            ),
            "divide it",
        ),
        Code::Repeated => explained(
            "the second of the two names",
            "a header was copied, or a result has the name of a parameter",
            "give one of the two another name",
        ),
        _ => explained(
            "the default's start",
            "the default and the type of the parameter do not go together",
            "change the default or the type",
        ),
    }
}

fn of_calls(code: Code) -> Explanation {
    match code {
        Code::Undeclared => explained(
            "the operation's name",
            "the name is misspelt, or the list is not the one that the file was written for",
            "use an operation of the list, or add this one to it",
        ),
        Code::Misplaced => explained(
            "the argument",
            "values that are no tensors, and all that stand behind a named argument, need a name",
            "name the argument: `by = 0.5`",
        ),
        Code::Misnamed => explained(
            "the argument's name",
            "the parameter's name is misspelt, or it has a value already, perhaps by its place",
            "use a parameter of the operation, and each once",
        ),
        Code::Misfit => explained(
            "the value's start",
            "the value is of another kind than the parameter, or a whole number beyond the bounds of an extent",
            "write a value of the parameter's type",
        ),
        Code::Missing => explained(
            "the operation's name",
            "a parameter that has no default was left out, or its value was written without its name",
            "give the parameter a value by name",
        ),
        _ => explained(
            "the left side's start",
            "the call assigns more or fewer identifiers than the operation has results, or one result is an array",
            "write one identifier for each result; those of an array in brackets: `[a, b]`",
        ),
    }
}

fn of_wiring(code: Code) -> Explanation {
    match code {
        Code::Again => explained(
            "the second place",
            "a line was copied, or two parts of a graph use one name",
            "give the second identifier another name",
        ),
        Code::Unassigned => explained(
            "the use",
            "the identifier is misspelt, or its call stands further down",
            "use an identifier of an earlier call; calls stand in the order in which they run",
        ),
        Code::Misfed => explained(
            "the identifier where it is assigned, or else in the header",
            "inputs of the header and calls of `external` do not go together",
            "assign every input of the header by `external`, and nothing else",
        ),
        _ => explained(
            "the output in the header",
            "the output is misspelt, or its call is missing",
            "assign it by a call, or remove it from the header",
        ),
    }
}

fn of_canonical_text(code: Code) -> Explanation {
    match code {
        Code::CanonTooLong => explained(
            "no text",
            "with every default and every name written out the graph is too long, though the file is not",
            "divide the graph; `nnef check`, `calls`, `paths` and `graph` still read it",
        ),
        _ => explained(
            "no text",
            "a program lends the library an output that is too short",
            format!("lend {} bytes, which is always enough; the command does, so it never shows this code", limits::TEXT_BYTES),
        ),
    }
}

fn of_order(code: Code) -> Explanation {
    match code {
        Code::OrderLength => explained(
            "the order's first place",
            "a call was left out of the order or stands in it twice, or the order was made for another graph",
            "write the number of every call once; `nnef calls` numbers them",
        ),
        Code::NoCall => explained(
            "the number's place in the order",
            "calls count from 0, so the last one is one less than there are; or the order was made for another graph",
            "write the number of a call; `nnef calls` numbers them",
        ),
        Code::CallRepeated => explained(
            "the later of the two places in the order",
            "a number was copied, or stands where another one was meant",
            "leave the call at one place, and put a call there that is missing",
        ),
        _ => explained(
            "the using call's place in the order",
            "the order does not follow the wires: the assigning call stands later, or nowhere",
            "put the assigning call before the using one; `nnef calls` has the wires",
        ),
    }
}
