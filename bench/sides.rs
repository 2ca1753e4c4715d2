//! The operations of the library and of the reference, and what both are lent.

use crate::inputs::Pair;
use crate::library::{self, CALL_WORDS, TEXT_BYTES, WIRE_WORDS, WORK_WORDS};
use crate::orders::Ordered;

/// An operation on an input, with what is lent to it, that answers so many numbers.
pub type Operation<Input, Lent, const N: usize> = fn(&Input, &mut Lent) -> [u32; N];

/// Two sides that do the same.
pub struct Sides<Input: ?Sized, Lent: ?Sized, const N: usize = 4> {
    pub library: Operation<Input, Lent, N>,
    pub reference: Operation<Input, Lent, N>,
}

pub const TOKENS: Sides<[u8], [u32]> = Sides {
    library: |text, table| library::tokens(text, table).numbers(),
    reference: |text, table| nnef_reference::tokens(text, table).numbers(),
};

pub const CHECK: Sides<Pair, Lent> = Sides {
    library: |Pair { list, document }, lent| {
        let [list_work, document_work] = &mut lent.work;
        let (calls, wires) = (&mut lent.calls, &mut lent.wires);
        library::check(list, document, list_work, document_work, calls, wires).numbers()
    },
    reference: |Pair { list, document }, lent| {
        let [list_work, document_work] = &mut lent.work;
        let (calls, wires) = (&mut lent.calls, &mut lent.wires);
        nnef_reference::check(list, document, list_work, document_work, calls, wires).numbers()
    },
};

pub const CANON: Sides<Pair, Lent> = Sides {
    library: |Pair { list, document }, lent| {
        let [list_work, document_work] = &mut lent.work;
        library::canon(list, document, list_work, document_work, &mut lent.out).numbers()
    },
    reference: |Pair { list, document }, lent| {
        let [list_work, document_work] = &mut lent.work;
        nnef_reference::canon(list, document, list_work, document_work, &mut lent.out).numbers()
    },
};

pub const ORDER: Sides<Ordered, Lent> = Sides {
    library: |Ordered { pair, order }, lent| {
        let [list_work, document_work] = &mut lent.work;
        library::order(&pair.list, &pair.document, list_work, document_work, order).numbers()
    },
    reference: |Ordered { pair, order }, lent| {
        let [list_work, document_work] = &mut lent.work;
        nnef_reference::order(&pair.list, &pair.document, list_work, document_work, order).numbers()
    },
};

/// Nothing is lent to a comparison.
pub const COMPARE: Sides<[Vec<u8>; 2], (), 2> = Sides {
    library: |[a, b], ()| library::compare(a, b).numbers(),
    reference: |[a, b], ()| nnef_reference::compare(a, b).numbers(),
};

/// What `check`, `canon` and `order` are lent.
#[derive(PartialEq)]
pub struct Lent {
    /// The work areas of the list and of the document.
    work: [Vec<u32>; 2],
    calls: Vec<u32>,
    wires: Vec<u32>,
    out: Vec<u8>,
}

impl Lent {
    pub fn new() -> Lent {
        Lent {
            work: [vec![7; WORK_WORDS], vec![7; WORK_WORDS]],
            calls: vec![7; CALL_WORDS],
            wires: vec![7; WIRE_WORDS],
            out: vec![7; TEXT_BYTES],
        }
    }
}

impl<Input: ?Sized, Lent: ?Sized + PartialEq, const N: usize> Sides<Input, Lent, N> {
    /// What both sides answer; they must agree in the answer and in what they
    /// leave in equal buffers.
    pub fn agreed(&self, name: &str, input: &Input, one: &mut Lent, other: &mut Lent) -> [u32; N] {
        let library = (self.library)(input, one);
        let reference = (self.reference)(input, other);
        assert_eq!(library, reference, "{name}: the answers differ");
        assert!(one == other, "{name}: the buffers differ");
        library
    }
}
