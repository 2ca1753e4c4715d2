//! Reads flat NNEF graphs by a proved library: checks them against a list of operations, and writes them in one spelling.
//!
//! The library is the archive `libnnef.a`. The build finds it in the folder that the environment variable `NNEF_LIB_DIR` names, or in
//! `crates/nnef/out` of the repository, where `rt lib` in `crates/nnef` puts it. A project takes this crate by its path:
//!
//! ```toml
//! [dependencies]
//! sluicegnome = { path = "../sluicegnome/bindings/rust" }
//! ```
//!
//! Every function takes any bytes, ends, and answers with what it made or with the first fault, a [`Refusal`]; [`compare`] refuses nothing.
//! Nothing is kept between calls, and any number of threads may call at the same time; a call takes up to 120 KB of stack.
//!
//! ```
//! let list = b"fragment external(shape: extent[]) -> (output: tensor)
//!              fragment scale(x: tensor, by: scalar = 1) -> (y: tensor)";
//! let graph = b"version 1.0 graph win(px) -> (out) { px = external(shape=[01,9]); out = scale(px, by=0.50) }";
//!
//! let text = sluicegnome::canon(list, graph).unwrap();
//! assert_eq!(
//!     String::from_utf8(text).unwrap(),
//!     "version 1.0\ngraph win(px)->(out)\n{\npx=external(shape=[1,9]);\nout=scale(x=px,by=5e-1);\n}\n"
//! );
//! ```

#[path = "../../../include/nnef.rs"]
#[rustfmt::skip]
mod raw;

mod codes;
mod comparison;
mod place;
mod records;
mod refusal;

pub use codes::Code;
pub use comparison::{compare, Comparison};
pub use place::{place, Place};
pub use records::{Call, Checked, Kind, Token, Wire};
pub use refusal::{Refusal, Text};

/// Sizes: the most that there may be.
pub mod limits {
    pub use crate::raw::{
        ASSIGNED, BRACKETS, CALLS, INPUTS, NAME_BYTES, NUMBER_BYTES, OPERATIONS, OUTPUTS, PARAMETERS, RESULTS, STRING_BYTES, TEXT_BYTES,
        TOKENS, USES,
    };
}

/// The tokens of a text.
///
/// ```
/// use sluicegnome::{Code, Kind};
///
/// let tokens = sluicegnome::tokens(b"a <= 1e2").unwrap();
/// let kinds: Vec<Kind> = tokens.iter().map(|token| token.kind).collect();
/// assert_eq!(kinds, [Kind::Name, Kind::Operator, Kind::Real]);
///
/// let signed = sluicegnome::tokens(b"-1").unwrap();
/// assert_eq!(signed.iter().map(|token| token.kind).collect::<Vec<_>>(), [Kind::Operator, Kind::Whole]);
///
/// let lines = sluicegnome::tokens(b"a # a comment\nb c\n\nd").unwrap();
/// assert_eq!(lines.iter().map(|token| token.line).collect::<Vec<_>>(), [1, 2, 2, 4]);
///
/// let refusal = sluicegnome::tokens(b"a = 1.").unwrap_err();
/// assert_eq!((refusal.code, refusal.position), (Code::NumberMisspelt, 4));
/// ```
pub fn tokens(text: &[u8]) -> Result<Vec<Token>, Refusal> {
    let mut table = vec![0; raw::TABLE_WORDS];
    let count = refusal::result(raw::tokens(text, &mut table))?;
    Ok(records::tokens(&table, count))
}

/// How many operations a list declares.
///
/// ```
/// assert_eq!(sluicegnome::declarations(b"fragment half(x: tensor) -> (y: tensor)"), Ok(1));
/// assert_eq!(sluicegnome::declarations(b"fragment half").unwrap_err().position, 13);
/// ```
pub fn declarations(list: &[u8]) -> Result<usize, Refusal> {
    refusal::result(raw::declarations(list, &mut work_area()))
}

/// The calls and wires of a document under a list.
///
/// ```
/// # let list = b"fragment external(shape: extent[]) -> (output: tensor) fragment scale(x: tensor, by: scalar = 1) -> (y: tensor)";
/// let graph = b"version 1.0 graph win(px) -> (out) { px = external(shape=[1,9]); out = scale(px) }";
/// let checked = sluicegnome::check(list, graph).unwrap();
/// assert_eq!(checked.calls.len(), 2);
/// assert_eq!(checked.wires[0].from, 0);
/// ```
pub fn check(list: &[u8], document: &[u8]) -> Result<Checked, Refusal> {
    let mut calls = vec![0; raw::CALL_WORDS];
    let mut wires = vec![0; raw::WIRE_WORDS];
    let answer = raw::check(list, document, &mut work_area(), &mut work_area(), &mut calls, &mut wires);
    let count = refusal::result(answer)?;
    Ok(records::checked(&calls, &wires, count))
}

/// The canonical text of a document under a list. Under one list, two documents have the same one exactly when they say the same.
///
/// ```
/// let shift = b"fragment external(shape: extent[]) -> (output: tensor) fragment shift(x: tensor, step: extent = -1) -> (y: tensor)";
/// let text = sluicegnome::canon(shift, b"version 1.0 graph g(a) -> (b) { a = external(shape=[1]) b = shift(-0.0) }").unwrap();
/// assert!(text.ends_with(b"b=shift(x=0e0,step=-1);\n}\n"));
///
/// # let list = b"fragment external(shape: extent[]) -> (output: tensor)";
/// let refusal = sluicegnome::canon(list, b"version 1.0 graph g(a) -> (b) { a = extern(shape=[1]) }").unwrap_err();
/// assert_eq!(refusal.numbers(), [24, 2, 27, 0]);
/// assert_eq!(refusal.code.text(), "the output is never assigned");
/// ```
pub fn canon(list: &[u8], document: &[u8]) -> Result<Vec<u8>, Refusal> {
    let mut out = vec![0; raw::TEXT_BYTES];
    let answer = raw::canon(list, document, &mut work_area(), &mut work_area(), &mut out);
    let count = refusal::result(answer)?;
    out.truncate(count);
    Ok(out)
}

/// How many calls a document has under a list, if this is an order of them: each call once, and after the calls that assign what it
/// uses. Calls count from 0, as they stand in the document and in [`Checked::calls`].
///
/// ```
/// use sluicegnome::Code;
///
/// # let list = b"fragment external(shape: extent[]) -> (output: tensor) fragment add(x: tensor, y: tensor) -> (z: tensor)";
/// let graph = b"version 1.0 graph g(a, b) -> (c) { a = external(shape=[1]) b = external(shape=[1]) c = add(a, b) }";
/// assert_eq!(sluicegnome::order(list, graph, &[1, 0, 2]), Ok(3));
///
/// let fault = |order: &[u32]| {
///     let refusal = sluicegnome::order(list, graph, order).unwrap_err();
///     (refusal.code, refusal.position)
/// };
/// assert_eq!(fault(&[1, 0]), (Code::OrderLength, 0));
/// assert_eq!(fault(&[1, 0, 3]), (Code::NoCall, 2));
/// assert_eq!(fault(&[1, 1, 2]), (Code::CallRepeated, 1));
/// assert_eq!(fault(&[1, 2, 0]), (Code::UseTooEarly, 1));
///
/// let refusal = sluicegnome::order(list, graph, &[1, 2, 0]).unwrap_err();
/// assert_eq!(
///     refusal.to_string(),
///     "the call uses an identifier whose assigning call stands at no earlier place (place 1 of the order)"
/// );
/// ```
pub fn order(list: &[u8], document: &[u8], order: &[u32]) -> Result<usize, Refusal> {
    refusal::result(raw::order(list, document, &mut work_area(), &mut work_area(), order))
}

fn work_area() -> Vec<u32> {
    vec![0; raw::WORK_WORDS]
}
