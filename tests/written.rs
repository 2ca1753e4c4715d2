//! Texts of written cases.
//!
//! In a text `@` marks the place of the fault, and is taken out. In a piece that
//! is repeated `%` stands for the number of the repetition, from 0.

use Text::{Body, CanonicalBody, Once, Pieces};

#[derive(Clone, Copy)]
pub enum Text {
    Once(&'static str),
    /// Calls of a graph with the output `z` and the input `a`, which is assigned already.
    Body(&'static str),
    /// The canonical text of such a graph with these lines for its calls.
    CanonicalBody(&'static str),
    /// Pieces one after another, each as many times as it says.
    Pieces(&'static [(&'static str, usize)]),
}

impl Text {
    pub fn bytes(self) -> Vec<u8> {
        self.marked().replace('@', "").into_bytes()
    }

    /// The place of the fault, if it is in this text.
    pub fn mark(self) -> Option<usize> {
        self.marked().find('@')
    }

    /// The text with its marks.
    pub fn marked(self) -> String {
        match self {
            Once(text) => text.to_string(),
            Body(calls) => format!("{BODY}{calls}}}"),
            CanonicalBody(lines) => format!("{CANONICAL_BODY}{lines}\n}}\n"),
            Pieces(pieces) => pieces
                .iter()
                .flat_map(|(piece, times)| (0..*times).map(|n| piece.replace('%', &n.to_string())))
                .collect(),
        }
    }
}

/// An answer, with the text and the place of the mark where a pair has one.
pub fn at_mark(answer: [u32; 4], list: Text, document: Text) -> [u32; 4] {
    let [code, text, position, detail] = answer;
    match (list.mark(), document.mark()) {
        (Some(mark), _) => [code, 1, mark as u32, detail],
        (None, Some(mark)) => [code, 2, mark as u32, detail],
        (None, None) => [code, text, position, detail],
    }
}

/// What stands before the calls of a body.
pub const BODY: &str = "version 1.0 graph g(a)->(z){a=external(shape=[1]);";
const CANONICAL_BODY: &str = "version 1.0\ngraph g(a)->(z)\n{\na=external(shape=[1]);\n";

/// The list and the documents of the worked example.
pub const EXAMPLE_LIST: Text = Once(
    "fragment external(shape: extent[]) -> (output: tensor) \
     fragment scale(x: tensor, by: scalar = 1) -> (y: tensor)",
);
pub const EXAMPLE: Text = Once(
    "version 1.0 graph win(px) -> (out) { px = external(shape=[01,9]); out = scale(px, by=0.50) }",
);
pub const CANONICAL_EXAMPLE: Text = Once(
    "version 1.0\ngraph win(px)->(out)\n{\npx=external(shape=[1,9]);\nout=scale(x=px,by=5e-1);\n}\n",
);

/// Operations for most cases.
pub const OPERATIONS: Text = Once(
    "fragment external(shape: extent[]) -> (output: tensor) \
     fragment scale(x: tensor, by: scalar = 1) -> (y: tensor) \
     fragment split(x: tensor, parts: extent) -> (left: tensor, right: tensor) \
     fragment items(x: tensor[]) -> (ys: tensor[]) \
     fragment both(x: tensor = 0, y: tensor = 0) -> (z: tensor) \
     fragment label(x: tensor, name: string, flag: logical = true, at: extent) -> (y: tensor) \
     fragment nest(x: (tensor, tensor[])) -> (y: (tensor, tensor), z: tensor) \
     fragment size(x: tensor) -> (n: extent) \
     fragment sizes(x: tensor) -> (ns: extent[]) \
     fragment pads(x: tensor, pad: (extent, scalar)[] = []) -> (y: tensor) \
     fragment late(x: (tensor, extent) = (0, 0), y: tensor) -> (z: tensor)",
);
