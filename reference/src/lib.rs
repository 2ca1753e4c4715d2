//! A plain Rust reading of flat NNEF text, written from the rules alone. The
//! proved library is tested against it and timed beside it.

mod binding;
mod canonical;
mod codes;
mod comparison;
mod fault;
mod fitting;
mod graph;
mod lexer;
mod limits;
mod names;
mod number;
mod order;
mod parser;
mod plan;
mod rules_document;
mod rules_list;
mod token;
mod tree;

use canonical::canonical_text;
use fault::Fault;
use graph::Graph;
use plan::Plan;
use token::Token;
use tree::{Document, List};

pub use comparison::{compare, Comparison};

/// The text numbers of answers: none, the operation list or the sole text, and the document.
const NO_TEXT: u32 = 0;
const LIST: u32 = 1;
const DOCUMENT: u32 = 2;

/// The four numbers that an operation answers with.
#[derive(Clone, Copy, Debug, PartialEq, Eq)]
pub struct Answer {
    /// 0 for acceptance, else the fault's code.
    pub code: u32,
    /// 0 for no text, 1 for the operation list or the sole text, 2 for the document.
    pub text: u32,
    /// The fault's place in that text, in bytes; at codes 41 to 44 the place in the order.
    pub position: u32,
    /// The count after acceptance; at code 19 the parameter's index; at code 26
    /// the canonical text's length; else 0.
    pub detail: u32,
}

impl Answer {
    pub fn numbers(self) -> [u32; 4] {
        [self.code, self.text, self.position, self.detail]
    }

    fn accepted(count: usize) -> Answer {
        Answer {
            code: 0,
            text: 0,
            position: 0,
            detail: count as u32,
        }
    }

    fn room_too_short() -> Answer {
        Answer::refused(NO_TEXT, Fault::new(codes::ROOM_TOO_SHORT, 0))
    }

    fn refused(text: u32, fault: Fault) -> Answer {
        Answer {
            code: fault.code,
            text,
            position: fault.position,
            detail: fault.detail,
        }
    }
}

/// Splits a text into tokens. Each token takes four words of the table: its kind,
/// its start, its end after the last byte and its line. The table is changed only
/// when the text is accepted, and then only over the records.
pub fn tokens(text: &[u8], table: &mut [u32]) -> Answer {
    if table.len() < limits::TABLE_WORDS {
        return Answer::room_too_short();
    }
    match lexer::length(text).and_then(|()| lexer::lex(text)) {
        Err(fault) => Answer::refused(LIST, fault),
        Ok(tokens) => {
            // The last one is the text's end.
            let count = tokens.len() - 1;
            for (record, token) in table.chunks_exact_mut(4).zip(&tokens[..count]) {
                record[0] = token.symbol.kind();
                record[1] = u32::from(token.start);
                record[2] = u32::from(token.end);
                record[3] = u32::from(token.line);
            }
            Answer::accepted(count)
        }
    }
}

/// Checks an operation list and counts its operations. The work area is zero
/// afterwards, but for codes 1 and 2, which leave it as it was.
pub fn declarations(list: &[u8], work: &mut [u32]) -> Answer {
    if work.len() < limits::WORK_WORDS {
        return Answer::room_too_short();
    }
    if let Err(fault) = lexer::length(list) {
        return Answer::refused(LIST, fault);
    }
    work.fill(0);
    match good_list(list) {
        Err(fault) => Answer::refused(LIST, fault),
        Ok(list) => Answer::accepted(list.operations.len()),
    }
}

/// Checks a document under an operation list and counts its calls. On acceptance
/// each call takes four words of the call table (the operation's index, the place
/// of its name, identifiers assigned, identifiers used) and each use two words
/// of the wire table (its place, the index of the assigning call). The work areas
/// are zero afterwards, but for codes 1 and 2, which leave them as they were.
pub fn check(
    list: &[u8],
    document: &[u8],
    list_work: &mut [u32],
    document_work: &mut [u32],
    calls: &mut [u32],
    wires: &mut [u32],
) -> Answer {
    if calls.len() < limits::CALL_WORDS || wires.len() < limits::WIRE_WORDS {
        return Answer::room_too_short();
    }
    judged(list, document, [list_work, document_work], |_, _, graph| {
        let (call_table, wire_table) = (graph.calls.as_flattened(), graph.wires.as_flattened());
        calls[..call_table.len()].copy_from_slice(call_table);
        wires[..wire_table.len()].copy_from_slice(wire_table);
        Answer::accepted(graph.calls.len())
    })
}

/// Writes the canonical text of a document under an operation list and counts
/// its bytes. The output may have any length; it is changed only on acceptance,
/// and then only over the text. The work areas are zero afterwards, but for
/// codes 1 and 2, which leave them as they were.
pub fn canon(
    list: &[u8],
    document: &[u8],
    list_work: &mut [u32],
    document_work: &mut [u32],
    out: &mut [u8],
) -> Answer {
    judged(
        list,
        document,
        [list_work, document_work],
        |list, document, graph| {
            let Some(text) = canonical_text(list, document, graph) else {
                return Answer::refused(NO_TEXT, Fault::new(codes::CANONICAL_TOO_LONG, 0));
            };
            if out.len() < text.len() {
                let fault = Fault {
                    detail: text.len() as u32,
                    ..Fault::new(codes::OUTPUT_TOO_SHORT, 0)
                };
                return Answer::refused(NO_TEXT, fault);
            }
            out[..text.len()].copy_from_slice(&text);
            Answer::accepted(text.len())
        },
    )
}

/// Judges an order of the calls of a document under an operation list, and counts
/// them. The order may have any length. The work areas are zero afterwards, but
/// for codes 1 and 2, which leave them as they were.
pub fn order(
    list: &[u8],
    document: &[u8],
    list_work: &mut [u32],
    document_work: &mut [u32],
    order: &[u32],
) -> Answer {
    judged(
        list,
        document,
        [list_work, document_work],
        |_, _, graph| match order::keep(graph, order) {
            Err(fault) => Answer::refused(NO_TEXT, fault),
            Ok(()) => Answer::accepted(graph.calls.len()),
        },
    )
}

/// Whether two documents are accepted under an operation list and have the same plan.
pub fn same_plan(list: &[u8], one: &[u8], other: &[u8]) -> bool {
    let compare = || {
        for text in [list, one, other] {
            lexer::length(text)?;
        }
        let list = good_list(list)?;
        let (one, one_graph) = good_document(&list, one)?;
        let (other, other_graph) = good_document(&list, other)?;
        Ok::<_, Fault>(Plan::new(&list, &one, &one_graph) == Plan::new(&list, &other, &other_graph))
    };
    compare() == Ok(true)
}

/// Reads a text as an operation list, without its rules, and counts its tokens.
pub fn list_syntax(text: &[u8]) -> Answer {
    syntax(text, |tokens| {
        parser::operation_list(text, tokens).map(drop)
    })
}

/// Reads a text as a document, without its rules, and counts its tokens.
pub fn document_syntax(text: &[u8]) -> Answer {
    syntax(text, |tokens| parser::document(text, tokens).map(drop))
}

fn syntax(text: &[u8], parse: impl Fn(Vec<Token>) -> Result<(), Fault>) -> Answer {
    let read = || {
        lexer::length(text)?;
        let tokens = lexer::lex(text)?;
        let count = tokens.len() - 1;
        parse(tokens)?;
        Ok(count)
    };
    match read() {
        Err(fault) => Answer::refused(LIST, fault),
        Ok(count) => Answer::accepted(count),
    }
}

/// Holds a document against an operation list, stage by stage: the first fault,
/// or what `make` answers when there is none.
fn judged(
    list: &[u8],
    document: &[u8],
    work: [&mut [u32]; 2],
    make: impl FnOnce(&List, &Document, &Graph) -> Answer,
) -> Answer {
    if work.iter().any(|area| area.len() < limits::WORK_WORDS) {
        return Answer::room_too_short();
    }
    for (number, text) in [(LIST, list), (DOCUMENT, document)] {
        if let Err(fault) = lexer::length(text) {
            return Answer::refused(number, fault);
        }
    }
    work.into_iter().for_each(|area| area.fill(0));
    let list = match good_list(list) {
        Err(fault) => return Answer::refused(LIST, fault),
        Ok(list) => list,
    };
    match good_document(&list, document) {
        Err(fault) => Answer::refused(DOCUMENT, fault),
        Ok((document, graph)) => make(&list, &document, &graph),
    }
}

/// An operation list that has no fault.
fn good_list(text: &[u8]) -> Result<List<'_>, Fault> {
    let mut list = parser::operation_list(text, lexer::lex(text)?)?;
    rules_list::keep(&mut list)?;
    Ok(list)
}

/// A document that has no fault under the list, and its graph.
fn good_document<'a>(list: &List, text: &'a [u8]) -> Result<(Document<'a>, Graph), Fault> {
    let document = parser::document(text, lexer::lex(text)?)?;
    let graph = rules_document::keep(list, &document)?;
    Ok((document, graph))
}
