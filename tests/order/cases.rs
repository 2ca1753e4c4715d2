//! Written cases for `order`: texts, an order, what is lent, and what is to come
//! of them by the rules. They lie on either side of every rule.

use super::ROOM;
use crate::written::Text::{self, Body, Once, Pieces};
use crate::written::{at_mark, EXAMPLE, EXAMPLE_LIST, OPERATIONS};
use Numbers::{Falling, Rising, Written};

pub struct Case {
    pub list: Text,
    pub document: Text,
    pub order: Numbers,
    /// The lent lengths of the two work areas.
    pub room: [usize; 2],
    /// Code, text, position, detail; the text and the position where there is no mark.
    answer: [u32; 4],
}

#[derive(Clone, Copy)]
pub enum Numbers {
    Written(&'static [u32]),
    /// So many numbers from 0 on.
    Rising(u32),
    /// So many numbers down to 0.
    Falling(u32),
}

impl Numbers {
    pub fn numbers(self) -> Vec<u32> {
        match self {
            Written(numbers) => numbers.to_vec(),
            Rising(count) => (0..count).collect(),
            Falling(count) => (0..count).rev().collect(),
        }
    }
}

impl Case {
    pub fn answer(&self) -> [u32; 4] {
        at_mark(self.answer, self.list, self.document)
    }
}

/// An order that is right, with the number of calls.
const fn right(count: u32, document: Text, order: Numbers) -> Case {
    Case {
        list: LIST,
        document,
        order,
        room: ROOM,
        answer: [0, 0, 0, count],
    }
}

/// An order with a fault at a place.
const fn wrong(code: u32, place: u32, document: Text, order: Numbers) -> Case {
    Case {
        answer: [code, 0, place, 0],
        ..right(0, document, order)
    }
}

/// A list or a document that is refused at its mark, whatever the order is.
const fn refused(code: u32, list: Text, document: Text, order: Numbers) -> Case {
    Case {
        list,
        ..wrong(code, 0, document, order)
    }
}

/// A text that is too long.
const fn too_long(text: u32, list: Text, document: Text, order: Numbers) -> Case {
    Case {
        answer: [2, text, 16_384, 0],
        ..refused(2, list, document, order)
    }
}

/// The same case with other work areas.
const fn lent(room: [usize; 2], case: Case) -> Case {
    Case { room, ..case }
}

/// The same case under another list.
const fn under(list: Text, case: Case) -> Case {
    Case { list, ..case }
}

pub const LIST: Text = OPERATIONS;

/// Calls 0 to 2 in a row: each uses what the one before assigns.
const ROW: Text = Body("b=scale(a)z=scale(b)");
/// Calls 1 and 2 use the input, call 3 both of them.
const FORK: Text = Body("b=scale(a)c=scale(a)z=both(b,c)");
/// Call 1 uses nothing.
const FREE: Text = Body("b=scale(1)z=scale(a)");
/// Two inputs, and a call that uses both.
const INPUTS: Text =
    Once("version 1.0 graph g(a,i)->(z){a=external(shape=[1])i=external(shape=[1])z=both(a,i)}");
/// An input that nothing uses, assigned last.
const IDLE_INPUT: Text =
    Once("version 1.0 graph g(a,i)->(z){a=external(shape=[1])z=scale(a)i=external(shape=[1])}");
/// As many calls as may be; each but the first uses the input.
pub const MOST_CALLS: Text = Pieces(&[
    ("version 1.0 graph g(a)->(c0){a=external(shape=[1])", 1),
    ("c%=scale(a)", 383),
    ("}", 1),
]);
/// Call 2 has as many uses as may be.
const MOST_USES: Text = Pieces(&[
    (
        "version 1.0 graph g(a)->(z){a=external(shape=[1])z=scale(1)[]=items([a",
        1,
    ),
    (",a", 1_023),
    ("])}", 1),
]);

/// A list whose defaults make the canonical text of 302 calls too long.
const LONG_DEFAULTS: Text = Once(
    "fragment external(shape: extent[]) -> (output: tensor) \
     fragment scale(x: tensor, by: scalar = 1.0, offset: scalar = 0.0, label: string = 'none') -> (y: tensor)",
);
const LONG_CANONICAL: Text = Pieces(&[
    ("version 1.0 graph g(a)->(z){a=external(shape=[1])", 1),
    ("c%=scale(a)", 300),
    ("z=scale(a)}", 1),
]);

const TOO_LONG: Text = Pieces(&[(" ", 16_385)]);
const JUST_SHORT: Text = Pieces(&[
    (" ", 16_292),
    ("version 1.0 graph win(px) -> (out) { px = external(shape=[01,9]); out = scale(px, by=0.50) }", 1),
]);

#[rustfmt::skip]
pub const CASES: &[Case] = &[
    under(EXAMPLE_LIST, right(2, EXAMPLE, Written(&[0, 1]))),
    under(EXAMPLE_LIST, wrong(44, 0, EXAMPLE, Written(&[1, 0]))),
    right(3, ROW, Rising(3)),

    // 1: a work area is too short, whatever the texts and the order are.
    lent([16_384, 16_383], wrong(1, 0, ROW, Rising(3))),
    lent([16_383, 16_384], wrong(1, 0, ROW, Rising(3))),
    lent([0, 16_384], wrong(1, 0, ROW, Rising(3))),
    lent([16_384, 0], wrong(1, 0, ROW, Written(&[]))),
    lent([0, 0], wrong(1, 0, ROW, Written(&[9]))),
    lent([16_383, 16_384], wrong(1, 0, ROW, Rising(20_000))),
    lent([16_383, 16_384], refused(1, TOO_LONG, TOO_LONG, Rising(3))),
    lent([16_385, 16_384], right(3, ROW, Rising(3))),
    lent([16_384, 20_000], right(3, ROW, Rising(3))),
    lent([16_384, 20_000], wrong(41, 0, ROW, Written(&[]))),

    // An order of any length is no cause for 1.
    wrong(41, 0, ROW, Rising(16_383)),
    wrong(41, 0, ROW, Rising(20_000)),

    // 41: the length, before all else.
    wrong(41, 0, ROW, Written(&[])),
    wrong(41, 0, ROW, Rising(1)),
    wrong(41, 0, ROW, Rising(2)),
    wrong(41, 0, ROW, Rising(4)),
    wrong(41, 0, ROW, Written(&[9, 1])),
    wrong(41, 0, ROW, Written(&[9, 1, 2, 3])),
    wrong(41, 0, ROW, Written(&[4_294_967_295])),
    wrong(41, 0, ROW, Written(&[0, 0])),
    wrong(41, 0, ROW, Written(&[0, 1, 2, 2])),
    wrong(41, 0, ROW, Written(&[2, 1])),
    wrong(42, 0, ROW, Written(&[9, 1, 2])),

    // 44: at the using call, whether the assigning one stands later or nowhere.
    wrong(44, 0, ROW, Written(&[1, 0, 2])),
    wrong(44, 0, ROW, Written(&[2, 0, 1])),
    wrong(44, 1, ROW, Written(&[0, 2, 1])),
    wrong(44, 0, ROW, Falling(3)),
    wrong(44, 0, ROW, Written(&[1, 2, 2])),
    wrong(44, 0, ROW, Written(&[2, 0, 0])),
    wrong(44, 0, ROW, Written(&[1, 1, 1])),
    wrong(44, 1, ROW, Written(&[0, 2, 2])),
    wrong(44, 1, ROW, Written(&[0, 2, 0])),
    right(4, FORK, Rising(4)),
    right(4, FORK, Written(&[0, 2, 1, 3])),
    wrong(44, 2, FORK, Written(&[0, 1, 3, 2])),
    wrong(44, 2, FORK, Written(&[0, 2, 3, 1])),
    wrong(44, 1, FORK, Written(&[0, 3, 1, 2])),
    wrong(44, 2, FORK, Written(&[0, 1, 3, 3])),
    wrong(44, 1, FORK, Written(&[0, 3, 3, 3])),

    // The smallest place is given, whatever stands behind it.
    wrong(42, 0, ROW, Written(&[9, 9, 9])),
    wrong(42, 1, ROW, Written(&[0, 9, 9])),
    wrong(42, 1, ROW, Written(&[0, 9, 0])),
    wrong(42, 1, ROW, Written(&[0, 3, 2])),
    wrong(43, 1, ROW, Written(&[0, 0, 9])),
    wrong(43, 1, ROW, Written(&[0, 0, 2])),
    wrong(43, 1, ROW, Written(&[0, 0, 0])),
    wrong(44, 0, ROW, Written(&[2, 9, 0])),
    wrong(44, 0, ROW, Written(&[2, 2, 9])),
    wrong(44, 1, ROW, Written(&[0, 2, 9])),

    // 43: at the second place, not at the first.
    wrong(43, 2, ROW, Written(&[0, 1, 0])),
    wrong(43, 2, ROW, Written(&[0, 1, 1])),
    wrong(43, 3, FORK, Written(&[0, 2, 1, 2])),
    wrong(43, 2, FORK, Written(&[0, 1, 1, 1])),

    // 42: numbers have no sign.
    wrong(42, 2, ROW, Written(&[0, 1, 3])),
    wrong(42, 2, ROW, Written(&[0, 1, 4])),
    wrong(42, 2, ROW, Written(&[0, 1, 65_538])),
    wrong(42, 2, ROW, Written(&[0, 1, 2_147_483_648])),
    wrong(42, 2, ROW, Written(&[0, 1, 2_147_483_650])),
    wrong(42, 2, ROW, Written(&[0, 1, 4_294_967_295])),
    wrong(42, 0, ROW, Written(&[4_294_967_295, 0, 1])),

    // Calls of `external` are calls like any other.
    right(3, INPUTS, Rising(3)),
    right(3, INPUTS, Written(&[1, 0, 2])),
    wrong(44, 1, INPUTS, Written(&[0, 2, 1])),
    wrong(44, 1, INPUTS, Written(&[1, 2, 0])),
    wrong(44, 1, INPUTS, Written(&[0, 2, 2])),
    wrong(43, 1, INPUTS, Written(&[0, 0, 2])),
    wrong(41, 0, INPUTS, Written(&[2])),
    right(3, IDLE_INPUT, Rising(3)),
    right(3, IDLE_INPUT, Written(&[2, 0, 1])),
    right(3, IDLE_INPUT, Written(&[0, 2, 1])),
    wrong(44, 0, IDLE_INPUT, Written(&[1, 0, 2])),
    wrong(41, 0, IDLE_INPUT, Written(&[0, 1])),

    // A call without uses stands anywhere.
    right(3, FREE, Written(&[1, 0, 2])),
    right(3, FREE, Written(&[0, 1, 2])),
    right(3, FREE, Written(&[0, 2, 1])),
    wrong(44, 0, FREE, Written(&[2, 0, 1])),
    wrong(44, 1, FREE, Written(&[1, 2, 0])),

    // Several identifiers of one call, and one used more than once.
    right(3, Body("b,c=split(a,parts=2)z=both(b,c)"), Rising(3)),
    wrong(44, 1, Body("b,c=split(a,parts=2)z=both(b,c)"), Written(&[0, 2, 1])),
    right(3, Body("b=scale(a)z=both(b,b)"), Rising(3)),
    wrong(44, 1, Body("b=scale(a)z=both(b,b)"), Written(&[0, 2, 1])),
    right(4, Body("b=scale(a)[c]=items([a,b])z=scale(c)"), Rising(4)),
    wrong(44, 1, Body("b=scale(a)[c]=items([a,b])z=scale(c)"), Written(&[0, 2, 1, 3])),
    right(4, Body("b=scale(a)(d,e),z=nest((a,[b,b]))f=scale(e)"), Rising(4)),
    wrong(44, 1, Body("b=scale(a)(d,e),z=nest((a,[b,b]))f=scale(e)"), Written(&[0, 2, 1, 3])),
    wrong(44, 2, Body("b=scale(a)(d,e),z=nest((a,[b,b]))f=scale(e)"), Written(&[0, 1, 3, 2])),
    // A default is no use, and the order of arguments says nothing.
    right(3, Body("b=scale(a)z=both(y=b)"), Rising(3)),
    wrong(44, 0, Body("b=scale(a)z=both(y=b,x=a)"), Written(&[2, 0, 1])),
    wrong(44, 1, Body("b=scale(a)z=both(y=b,x=a)"), Written(&[0, 2, 1])),

    // As many calls and uses as may be.
    right(384, MOST_CALLS, Rising(384)),
    wrong(44, 0, MOST_CALLS, Falling(384)),
    wrong(41, 0, MOST_CALLS, Rising(383)),
    wrong(41, 0, MOST_CALLS, Rising(385)),
    right(3, MOST_USES, Written(&[1, 0, 2])),
    right(3, MOST_USES, Written(&[0, 2, 1])),
    wrong(44, 1, MOST_USES, Written(&[1, 2, 0])),

    // What `check` refuses comes first, with its own text and place.
    too_long(1, TOO_LONG, EXAMPLE, Written(&[])),
    too_long(2, EXAMPLE_LIST, TOO_LONG, Written(&[])),
    too_long(1, TOO_LONG, TOO_LONG, Written(&[0, 1])),
    under(EXAMPLE_LIST, right(2, JUST_SHORT, Written(&[0, 1]))),
    refused(9, Once(""), Once("@"), Written(&[])),
    refused(9, Once(""), Once("@"), Written(&[0])),
    refused(3, Once("@$"), EXAMPLE, Written(&[0, 1])),
    refused(9, Once("fragment@"), EXAMPLE, Written(&[])),
    refused(13, Once("fragment f(x: tensor) -> (@x: tensor)"), EXAMPLE, Written(&[9, 9])),
    refused(14, Once("fragment f(x: extent = @1.5) -> (y: tensor)"), Once("$"), Written(&[0])),
    refused(3, LIST, Body("z=scale(@$)"), Written(&[0, 1])),
    refused(9, LIST, Body("z=scale(a@}"), Written(&[1, 0])),
    refused(15, LIST, Body("z=@scael(a)"), Written(&[0, 1])),
    refused(15, LIST, Body("z=@scael(a)"), Written(&[1, 0])),
    refused(18, LIST, Body("z=scale(a,by=@true)"), Written(&[])),
    refused(22, LIST, Body("z=scale(@b)b=scale(a)"), Written(&[0, 2, 1])),
    refused(22, LIST, Body("z=scale(@z)"), Written(&[0, 1])),
    refused(24, LIST, Once("version 1.0 graph g(a)->(@z){a=external(shape=[1])}"), Written(&[0])),
    refused(12, LIST, Pieces(&[
        ("version 1.0 graph g(a)->(c0){a=external(shape=[1])", 1), ("c%=scale(a)", 383), ("@d=scale(a)}", 1),
    ]), Rising(385)),

    // A graph is judged though its canonical text is too long.
    under(LONG_DEFAULTS, right(302, LONG_CANONICAL, Rising(302))),
    under(LONG_DEFAULTS, wrong(44, 0, LONG_CANONICAL, Falling(302))),
    under(LONG_DEFAULTS, wrong(41, 0, LONG_CANONICAL, Rising(301))),
];
