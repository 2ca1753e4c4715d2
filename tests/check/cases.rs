//! Written cases for `declarations` and `check`: texts, what is lent, and what
//! is to come of them by the rules. They lie on either side of every limit.

use super::ROOM;
use crate::written::Text::{self, Body, Once, Pieces};
use crate::written::{at_mark, CANONICAL_EXAMPLE, EXAMPLE, EXAMPLE_LIST, OPERATIONS};

/// A case for `declarations`.
pub struct ListCase {
    pub list: Text,
    pub room: usize,
    /// Code, text, position, detail; the text and the position where there is no mark.
    answer: [u32; 4],
}

/// A case for `check`.
pub struct PairCase {
    pub list: Text,
    pub document: Text,
    /// The lent lengths: two work areas, the call table, the wire table.
    pub room: [usize; 4],
    answer: [u32; 4],
    /// The call table and the wire table, where they are written out.
    pub tables: Option<Tables>,
}

pub type Tables = (&'static [[u32; 4]], &'static [[u32; 2]]);

impl ListCase {
    pub fn answer(&self) -> [u32; 4] {
        let [code, text, position, detail] = self.answer;
        match self.list.mark() {
            Some(mark) => [code, 1, mark as u32, detail],
            None => [code, text, position, detail],
        }
    }
}

impl PairCase {
    pub fn answer(&self) -> [u32; 4] {
        at_mark(self.answer, self.list, self.document)
    }
}

/// A list that is accepted, with its number of operations.
const fn good_list(count: u32, list: Text) -> ListCase {
    ListCase {
        list,
        room: ROOM[0],
        answer: [0, 0, 0, count],
    }
}

/// A list that is refused at the mark.
const fn bad_list(code: u32, list: Text) -> ListCase {
    ListCase {
        list,
        room: ROOM[0],
        answer: [code, 0, 0, 0],
    }
}

/// A list that is too long.
const fn long_list(list: Text) -> ListCase {
    ListCase {
        list,
        room: ROOM[0],
        answer: [2, 1, 16_384, 0],
    }
}

/// The same case with another work area.
const fn list_lent(room: usize, case: ListCase) -> ListCase {
    ListCase { room, ..case }
}

/// A document that is accepted, with its tables.
const fn good(
    list: Text,
    document: Text,
    calls: &'static [[u32; 4]],
    wires: &'static [[u32; 2]],
) -> PairCase {
    PairCase {
        tables: Some((calls, wires)),
        ..counted(calls.len() as u32, list, document)
    }
}

/// A document that is accepted, with its number of calls.
const fn counted(count: u32, list: Text, document: Text) -> PairCase {
    PairCase {
        list,
        document,
        room: ROOM,
        answer: [0, 0, 0, count],
        tables: None,
    }
}

/// A pair that is refused at the mark.
const fn bad(code: u32, list: Text, document: Text) -> PairCase {
    PairCase {
        answer: [code, 0, 0, 0],
        ..counted(0, list, document)
    }
}

/// A call at the mark that leaves a parameter unbound, the first one at this index.
const fn unbound(index: u32, document: Text) -> PairCase {
    PairCase {
        answer: [19, 0, 0, index],
        ..counted(0, OPERATIONS, document)
    }
}

/// A pair of which this text is too long.
const fn long(text: u32, list: Text, document: Text) -> PairCase {
    PairCase {
        answer: [2, text, 16_384, 0],
        ..counted(0, list, document)
    }
}

/// The same case with other lengths lent.
const fn lent(room: [usize; 4], case: PairCase) -> PairCase {
    PairCase { room, ..case }
}

/// An operation for deep values and left sides.
const DEEP: Text = Once(
    "fragment external(shape: extent[]) -> (output: tensor) \
     fragment deep(x: tensor[][][][][][][][]) -> (y: tensor[][][][][][][][]) \
     fragment two(x: tensor) -> (y: tensor[][][][][][][][], z: tensor[][][][][][][][])",
);

/// A list in which `external` gives an array.
pub const ARRAY_EXTERNAL: Text = Once(
    "fragment external(shape: extent[]) -> (output: tensor[]) \
     fragment scale(x: tensor, by: scalar = 1) -> (y: tensor)",
);

/// A list without `external`.
const NO_EXTERNAL: Text = Once("fragment scale(x: tensor, by: scalar = 1) -> (y: tensor)");

#[rustfmt::skip]
pub const LISTS: &[ListCase] = &[
    good_list(0, Once("")),
    good_list(0, Once(" \n# no operations")),
    good_list(2, EXAMPLE_LIST),
    good_list(11, OPERATIONS),
    good_list(2, Once(
        "fragment foo( input: tensor, size: extent[] = [1] ) -> ( output: tensor )\n\n\
         fragment bar( input: tensor, alpha: scalar = 0.5 )\n-> ( output: tensor, extra: tensor[] )\n",
    )),
    good_list(1, Once("fragment f(x:tensor [ ] [\n] )->(y:( tensor,(tensor , extent [] ) ) [])")),
    // 1: the work area is too short.
    list_lent(0, bad_list(1, Once(""))),
    list_lent(16_383, bad_list(1, Once("$"))),
    list_lent(16_383, bad_list(1, Pieces(&[(" ", 16_385)]))),
    list_lent(16_400, good_list(2, EXAMPLE_LIST)),
    list_lent(16_400, bad_list(9, Once("@x"))),
    // 2: the list is too long.
    good_list(0, Pieces(&[(" ", 16_384)])),
    long_list(Pieces(&[(" ", 16_385)])),
    list_lent(16_400, long_list(Pieces(&[("$", 16_385)]))),
    // 3 to 8: the bytes come before the syntax.
    bad_list(3, Once("x @$")),
    bad_list(3, Once(") @. (")),
    bad_list(4, Once("fragment f(x: scalar = @1.) -> (y: tensor)")),
    bad_list(4, Once("fragment f(x: scalar = @1e) -> (y: tensor)")),
    bad_list(5, Once("fragment f(x: string = @'ab) -> (y: tensor)")),
    good_list(1, Pieces(&[("fragment ", 1), ("f", 64), ("(x: tensor) -> (y: tensor)", 1)])),
    bad_list(6, Pieces(&[("fragment @", 1), ("f", 65), ("(x: tensor) -> (y: tensor)", 1)])),
    good_list(1, Once("fragment f(x: scalar = 1e999) -> (y: tensor)")),
    bad_list(7, Once("fragment f(x: scalar = @1e1000) -> (y: tensor)")),
    good_list(1, Pieces(&[("fragment f(w: extent[] = [], x: extent[] = [1", 1), (",1", 2_034), ("]) -> (y: tensor)", 1)])),
    bad_list(8, Pieces(&[("fragment f(w: extent[] = [], x: extent[] = [1", 1), (",1", 2_034), ("]) -> (y: tensor)@;", 1)])),
    // 9: headers.
    bad_list(9, Once("@f(x: tensor) -> (y: tensor)")),
    bad_list(9, Once("@version 1.0")),
    bad_list(9, Once("@graph g(a) -> (z)")),
    bad_list(9, Once("fragment@")),
    bad_list(9, Once("fragment f  # the text's end\n @")),
    bad_list(9, Once("fragment @(x: tensor) -> (y: tensor)")),
    bad_list(9, Once("fragment @fragment f(x: tensor) -> (y: tensor)")),
    bad_list(9, Once("fragment @in(x: tensor) -> (y: tensor)")),
    bad_list(9, Once("fragment @'f'(x: tensor) -> (y: tensor)")),
    bad_list(9, Once("fragment f@: (x: tensor) -> (y: tensor)")),
    bad_list(9, Once("fragment f(@) -> (y: tensor)")),
    bad_list(9, Once("fragment f(x: tensor,@) -> (y: tensor)")),
    bad_list(9, Once("fragment f(x: tensor @y: tensor) -> (y: tensor)")),
    bad_list(9, Once("fragment f(x: tensor@; y: tensor) -> (z: tensor)")),
    bad_list(9, Once("fragment f(@true: tensor) -> (y: tensor)")),
    bad_list(9, Once("fragment f(@version: tensor) -> (y: tensor)")),
    bad_list(9, Once("fragment f(x@) -> (y: tensor)")),
    bad_list(9, Once("fragment f(x@= 1) -> (y: tensor)")),
    bad_list(9, Once("fragment f(x: tensor) @(y: tensor)")),
    bad_list(9, Once("fragment f(x: tensor) @- > (y: tensor)")),
    bad_list(9, Once("fragment f(x: tensor) -> @y: tensor")),
    bad_list(9, Once("fragment f(x: tensor) -> (@)")),
    bad_list(9, Once("fragment f(x: tensor) -> (y: tensor@= 1)")),
    bad_list(9, Once("fragment f(x: tensor) -> (y: tensor,@)")),
    bad_list(9, Once("fragment f(x: tensor) -> (y: tensor@")),
    bad_list(9, Once("fragment f(x: tensor) -> (y: tensor)@;")),
    bad_list(9, Once("fragment f(x: tensor) -> (y: tensor) @{ y = g(x) }")),
    bad_list(9, Once("fragment f(x: tensor) -> (y: tensor) fragment f(x: tensor) -> (y: tensor) @f")),
    // 9: types.
    bad_list(9, Once("fragment f(x: @) -> (y: tensor)")),
    bad_list(9, Once("fragment f(x: @real) -> (y: tensor)")),
    bad_list(9, Once("fragment f(x: @shape_of) -> (y: tensor)")),
    bad_list(9, Once("fragment f(x: @[]) -> (y: tensor)")),
    bad_list(9, Once("fragment f(x: tensor[@1]) -> (y: tensor)")),
    bad_list(9, Once("fragment f(x: tensor[@[]]) -> (y: tensor)")),
    bad_list(9, Once("fragment f(x: tensor@]) -> (y: tensor)")),
    bad_list(9, Once("fragment f(x: (tensor@)) -> (y: tensor)")),
    bad_list(9, Once("fragment f(x: (tensor[]@)) -> (y: tensor)")),
    bad_list(9, Once("fragment f(x: (@)) -> (y: tensor)")),
    bad_list(9, Once("fragment f(x: (tensor,@)) -> (y: tensor)")),
    bad_list(9, Once("fragment f(x: (tensor, extent@]) -> (y: tensor)")),
    bad_list(9, Once("fragment f(x: tensor, @extent) -> (y: tensor)")),
    // 9: defaults hold literals alone.
    bad_list(9, Once("fragment f(x: tensor = @) -> (y: tensor)")),
    bad_list(9, Once("fragment f(x: tensor = @a) -> (y: tensor)")),
    bad_list(9, Once("fragment f(x: tensor[] = [1, @a]) -> (y: tensor)")),
    bad_list(9, Once("fragment f(x: extent @== 1) -> (y: tensor)")),
    bad_list(9, Once("fragment f(x: tensor = (1@)) -> (y: tensor)")),
    bad_list(9, Once("fragment f(x: tensor = (@)) -> (y: tensor)")),
    bad_list(9, Once("fragment f(x: (extent, extent) = 1, @2) -> (y: tensor)")),
    bad_list(9, Once("fragment f(x: (extent, extent) = (1, 2@]) -> (y: tensor)")),
    bad_list(9, Once("fragment f(x: extent[] = [1 @2]) -> (y: tensor)")),
    bad_list(9, Once("fragment f(x: extent[] = [1,@]) -> (y: tensor)")),
    bad_list(9, Once("fragment f(x: extent[] = [@,1]) -> (y: tensor)")),
    bad_list(9, Once("fragment f(x: extent[] = [@")),
    // 9: a sign is good where a literal may stand, and has a number behind it.
    good_list(1, Once("fragment f(x: extent = -1) -> (y: tensor)")),
    good_list(1, Once("fragment f(a: extent = - 1, b: scalar = -#c\n1, c: tensor = - # c\n# d\n\t1.5e0) -> (y: tensor)")),
    good_list(1, Once("fragment f(a: extent[] = [-1], b: (extent, scalar)[] = [(-1, - 2.5), (3, -4)], c: extent[][] = [[-1], [], [2, -3]]) -> (y: tensor)")),
    bad_list(9, Once("fragment f(x: extent = -@-1) -> (y: tensor)")),
    bad_list(9, Once("fragment f(x: extent = - @- 1) -> (y: tensor)")),
    bad_list(9, Once("fragment f(x: logical = -@true) -> (y: tensor)")),
    bad_list(9, Once("fragment f(x: tensor = -@x) -> (y: tensor)")),
    bad_list(9, Once("fragment f(x: tensor = -@x = 1) -> (y: tensor)")),
    bad_list(9, Once("fragment f(x: string = -@'s') -> (y: tensor)")),
    bad_list(9, Once("fragment f(x: extent[] = -@[1]) -> (y: tensor)")),
    bad_list(9, Once("fragment f(x: (extent, extent) = -@(1, 2)) -> (y: tensor)")),
    bad_list(9, Once("fragment f(x: extent = @->1) -> (y: tensor)")),
    bad_list(9, Once("fragment f(x: extent = -@->1) -> (y: tensor)")),
    bad_list(9, Once("fragment f(x: extent = - @>1) -> (y: tensor)")),
    bad_list(9, Once("fragment f(x: extent = -@) -> (y: tensor)")),
    bad_list(9, Once("fragment f(x: extent = -@, z: extent) -> (y: tensor)")),
    bad_list(9, Once("fragment f(x: extent[] = [-@]) -> (y: tensor)")),
    bad_list(9, Once("fragment f(x: extent[] = [1, -@, 2]) -> (y: tensor)")),
    bad_list(9, Once("fragment f(x: extent[] = [-1@-1]) -> (y: tensor)")),
    bad_list(9, Once("fragment f(x: extent = 1@-1) -> (y: tensor)")),
    bad_list(9, Once("fragment f(x: extent = -1@-1) -> (y: tensor)")),
    bad_list(9, Once("fragment f(x: extent = -1 @1) -> (y: tensor)")),
    bad_list(9, Once("fragment f(x: (extent, extent) = (-1@)) -> (y: tensor)")),
    bad_list(9, Once("fragment f(x: extent = @+1) -> (y: tensor)")),
    bad_list(9, Once("fragment f(x: extent = -@+1) -> (y: tensor)")),
    bad_list(9, Once("fragment f(x: extent = @+-1) -> (y: tensor)")),
    bad_list(9, Once("fragment f(x: extent = -@in) -> (y: tensor)")),
    bad_list(9, Once("fragment f(x: extent = -@")),
    bad_list(9, Once("fragment f(x: extent = - # the end\n @")),
    bad_list(9, Once("fragment @-f(x: tensor) -> (y: tensor)")),
    bad_list(9, Once("fragment f(@-x: tensor) -> (y: tensor)")),
    bad_list(9, Once("fragment f(x@-: tensor) -> (y: tensor)")),
    bad_list(9, Once("fragment f(x: @-tensor) -> (y: tensor)")),
    bad_list(9, Once("fragment f(x: @-1) -> (y: tensor)")),
    bad_list(9, Once("fragment f(x: tensor[@-1]) -> (y: tensor)")),
    bad_list(9, Once("fragment f(x: tensor @-1) -> (y: tensor)")),
    bad_list(9, Once("fragment f(x: (tensor, @-1)) -> (y: tensor)")),
    bad_list(9, Once("fragment f(x: tensor) -> (@-y: tensor)")),
    bad_list(9, Once("fragment f(x: tensor) -> (y: tensor @= -1)")),
    bad_list(9, Once("fragment f(x: tensor) -> (y: tensor)@-1")),
    // 4, 6, 7 and 8: the number has its own place and sizes, the sign is a token.
    bad_list(4, Once("fragment f(x: scalar = -@1.) -> (y: tensor)")),
    bad_list(4, Once("fragment f(x: scalar = --@1e) -> (y: tensor)")),
    bad_list(7, Once("fragment f(x: scalar = - @1e1000) -> (y: tensor)")),
    good_list(1, Once("fragment f(x: scalar = -999999999999999999, z: scalar = -1e999) -> (y: tensor)")),
    bad_list(7, Once("fragment f(x: scalar = -@1234567890123456789) -> (y: tensor)")),
    good_list(1, Pieces(&[("fragment f(x: extent = -", 1), ("0", 64), (") -> (y: tensor)", 1)])),
    bad_list(6, Pieces(&[("fragment f(x: extent = -@", 1), ("0", 65), (") -> (y: tensor)", 1)])),
    bad_list(8, Pieces(&[("fragment f(w: extent[] = [], x: extent[] = [-1", 1), (",1", 2_034), ("]) -> (y: tensor@)", 1)])),
    bad_list(9, Pieces(&[("fragment f(x: tensor = ", 1), ("[", 8), ("-@[", 1)])),
    good_list(1, Pieces(&[("fragment f(x: extent", 1), ("[]", 8), (" = ", 1), ("[", 8), ("-1", 1), ("]", 8), (") -> (y: tensor)", 1)])),
    // 10: eight brackets may be open, a ninth may not.
    good_list(1, Pieces(&[("fragment f(x: extent", 1), ("[]", 8), (" = ", 1), ("[", 8), ("1", 1), ("]", 8), (") -> (y: tensor)", 1)])),
    bad_list(10, Pieces(&[("fragment f(x: extent", 1), ("[]", 9), (" = ", 1), ("[", 8), ("@[", 1), ("1", 1), ("]", 9), (") -> (y: tensor)", 1)])),
    good_list(1, Pieces(&[("fragment f(x: ", 1), ("(", 8), ("tensor", 1), (", extent)", 8), (") -> (y: tensor)", 1)])),
    bad_list(10, Pieces(&[("fragment f(x: ", 1), ("(", 8), ("@(tensor", 1), (", extent)", 9), (") -> (y: tensor)", 1)])),
    good_list(1, Pieces(&[("fragment f(x: ", 1), ("(", 7), ("tensor[]", 1), (", extent)", 7), (") -> (y: tensor)", 1)])),
    bad_list(10, Pieces(&[("fragment f(x: ", 1), ("(", 8), ("tensor@[]", 1), (", extent)", 8), (") -> (y: tensor)", 1)])),
    bad_list(10, Pieces(&[("fragment f(x: tensor) -> (y: ", 1), ("(tensor,", 8), ("@(", 1)])),
    bad_list(10, Pieces(&[("fragment f(x: tensor = ", 1), ("[(1,", 4), ("@[", 1)])),
    good_list(1, Pieces(&[("fragment f(x: tensor", 1), ("[]", 9), (") -> (y: tensor)", 1)])),
    good_list(1, Pieces(&[("fragment f(x: extent[][] = [[]", 1), (",[]", 8), ("]) -> (y: tensor)", 1)])),
    // 9 and 10: the first in the text is given.
    bad_list(10, Pieces(&[("fragment f(x: tensor = ", 1), ("[", 8), ("@[ ;", 1)])),
    bad_list(10, Pieces(&[("fragment f(x: tensor = ", 1), ("[", 8), ("@[", 1)])),
    bad_list(9, Pieces(&[("fragment f(x: tensor = ", 1), ("[", 8), ("1@[", 1)])),
    bad_list(9, Pieces(&[("fragment f(x: ", 1), ("(", 8), ("@[", 1)])),
    bad_list(9, Pieces(&[("fragment f(x: tensor = ", 1), ("[", 8), ("@", 1)])),
    bad_list(9, Pieces(&[("fragment f(x: tensor = ", 1), ("[1@", 1), ("[", 9)])),
    // 12: a count above its size.
    good_list(128, Pieces(&[("fragment f%(x: tensor) -> (y: tensor) ", 128)])),
    bad_list(12, Pieces(&[("fragment f%(x: tensor) -> (y: tensor) ", 128), ("@fragment g(x: tensor) -> (y: tensor)", 1)])),
    bad_list(12, Pieces(&[("fragment f%(x: tensor) -> (y: tensor) ", 128), ("@fragment f0(x: tensor, x: tensor) -> (y: tensor)", 1)])),
    good_list(1, Pieces(&[("fragment f(p: tensor", 1), (", p%: tensor", 31), (") -> (y: tensor)", 1)])),
    bad_list(12, Pieces(&[("fragment f(p: tensor", 1), (", p%: tensor", 31), (", @q: tensor) -> (y: tensor)", 1)])),
    bad_list(12, Pieces(&[("fragment f(p: tensor", 1), (", p%: tensor", 31), (", @p: tensor, r: tensor = 's') -> (y: tensor)", 1)])),
    good_list(1, Pieces(&[("fragment f(x: tensor) -> (r: tensor", 1), (", r%: tensor", 7), (")", 1)])),
    bad_list(12, Pieces(&[("fragment f(x: tensor) -> (r: tensor", 1), (", r%: tensor", 7), (", @s: tensor)", 1)])),
    good_list(1, Pieces(&[("fragment f(p: tensor", 1), (", p%: tensor", 31), (") -> (r: tensor", 1), (", r%: tensor", 7), (")", 1)])),
    bad_list(12, Pieces(&[("fragment f(p: tensor", 1), (", p%: tensor", 31), (", @q: tensor) -> (r: tensor", 1), (", r%: tensor", 8), (")", 1)])),
    // 13: names repeated.
    bad_list(13, Once("fragment f(x: tensor) -> (y: tensor) fragment @f(x: tensor) -> (y: tensor)")),
    bad_list(13, Once(
        "fragment f(x: tensor) -> (y: tensor) fragment g(x: tensor) -> (y: tensor) \
         fragment @g(x: tensor) -> (y: tensor) fragment f(x: tensor) -> (y: tensor)",
    )),
    bad_list(13, Once("fragment f(x: tensor, @x: extent) -> (y: tensor)")),
    bad_list(13, Once("fragment f(x: tensor) -> (@x: tensor)")),
    bad_list(13, Once("fragment f(x: tensor) -> (y: tensor, z: tensor, @y: tensor)")),
    bad_list(13, Once("fragment f(x: tensor, @x: tensor) -> (y: tensor) fragment f(x: tensor) -> (y: tensor)")),
    bad_list(13, Once("fragment f(x: tensor) -> (y: tensor) fragment @f(x: tensor, x: tensor) -> (x: tensor)")),
    good_list(2, Once("fragment f(f: tensor, g: tensor) -> (F: tensor) fragment F(f: tensor) -> (g: tensor)")),
    // 14: defaults.
    good_list(1, Once("fragment f(x: extent = 2147483647) -> (y: tensor)")),
    bad_list(14, Once("fragment f(x: extent = @2147483648) -> (y: tensor)")),
    good_list(1, Once("fragment f(x: extent = 0000000000002147483647, z: extent = 000) -> (y: tensor)")),
    bad_list(14, Once("fragment f(x: extent = @1000000000000000000000) -> (y: tensor)")),
    bad_list(14, Once("fragment f(x: extent = @4294967297) -> (y: tensor)")),
    bad_list(14, Pieces(&[("fragment f(x: extent = @2", 1), ("0", 63), (") -> (y: tensor)", 1)])),
    bad_list(14, Once("fragment f(x: extent = @1.0) -> (y: tensor)")),
    bad_list(14, Once("fragment f(x: extent = @1e3) -> (y: tensor)")),
    good_list(1, Once("fragment f(a: scalar = 2, b: scalar = 2.0, c: scalar = 2147483648, d: scalar = 1e-999) -> (y: tensor)")),
    good_list(1, Once("fragment f(a: tensor = 2, b: tensor = 2.0, c: tensor = true, d: tensor = 99999999999) -> (y: tensor)")),
    good_list(1, Once("fragment f(a: logical = true, b: logical = false, c: string = 'it', d: string = \"it's\") -> (y: tensor)")),
    bad_list(14, Once("fragment f(x: tensor = @'s') -> (y: tensor)")),
    bad_list(14, Once("fragment f(x: scalar = @true) -> (y: tensor)")),
    bad_list(14, Once("fragment f(x: extent = @false) -> (y: tensor)")),
    bad_list(14, Once("fragment f(x: logical = @1) -> (y: tensor)")),
    bad_list(14, Once("fragment f(x: logical = @'true') -> (y: tensor)")),
    bad_list(14, Once("fragment f(x: string = @true) -> (y: tensor)")),
    bad_list(14, Once("fragment f(x: string = @1.5) -> (y: tensor)")),
    bad_list(14, Once("fragment f(x: extent[] = @1) -> (y: tensor)")),
    bad_list(14, Once("fragment f(x: extent = @[1]) -> (y: tensor)")),
    bad_list(14, Once("fragment f(x: extent = @[]) -> (y: tensor)")),
    bad_list(14, Once("fragment f(x: tensor = @(1, 2)) -> (y: tensor)")),
    good_list(1, Once("fragment f(x: extent[][] = [], z: extent[][] = [[], [1, 2]]) -> (y: tensor)")),
    bad_list(14, Once("fragment f(x: extent[][] = @[1]) -> (y: tensor)")),
    bad_list(14, Once("fragment f(x: extent[] = @[[]]) -> (y: tensor)")),
    good_list(1, Once("fragment f(x: scalar[] = [1, 2.5], z: tensor[] = [1, 2.5, true]) -> (y: tensor)")),
    bad_list(14, Once("fragment f(x: extent[] = @[1, 2.5]) -> (y: tensor)")),
    bad_list(14, Once("fragment f(x: extent[] = @[1, 2147483648]) -> (y: tensor)")),
    good_list(1, Once("fragment f(x: (extent, scalar)[] = [(1, 2), (3, 4.5)], z: (tensor[], string) = ([], 's')) -> (y: tensor)")),
    bad_list(14, Once("fragment f(x: (extent, scalar) = @(1.5, 2)) -> (y: tensor)")),
    bad_list(14, Once("fragment f(x: (extent, extent) = @(1, 2, 3)) -> (y: tensor)")),
    bad_list(14, Once("fragment f(x: (extent, extent, extent) = @(1, 2)) -> (y: tensor)")),
    bad_list(14, Once("fragment f(x: (extent, extent) = @[1, 2]) -> (y: tensor)")),
    bad_list(14, Once("fragment f(x: extent[] = @(1, 2)) -> (y: tensor)")),
    // 14: negative numbers; the place of one that is a default itself is its sign.
    good_list(1, Once("fragment f(x: extent = -2147483648) -> (y: tensor)")),
    good_list(1, Once("fragment f(x: extent = -2147483647) -> (y: tensor)")),
    good_list(1, Once("fragment f(x: extent = -0000000000002147483648, z: extent = - 2147483648) -> (y: tensor)")),
    good_list(1, Once("fragment f(a: extent = -0, b: extent = -000, c: scalar = -0, d: scalar = -0.0e5, e: tensor = -0, g: tensor = -0.0) -> (y: tensor)")),
    good_list(1, Once("fragment f(a: scalar = -2, b: scalar = -2.0, c: scalar = -2147483649, d: scalar = -1e-999) -> (y: tensor)")),
    good_list(1, Once("fragment f(a: tensor = -2, b: tensor = -2.0, c: tensor = -99999999999, d: tensor[] = [-1, 2, -2.5, true]) -> (y: tensor)")),
    good_list(1, Once("fragment f(x: extent[] = [-2147483648, 2147483647]) -> (y: tensor)")),
    bad_list(14, Once("fragment f(x: extent = @-2147483649) -> (y: tensor)")),
    bad_list(14, Once("fragment f(x: extent = @- 2147483649) -> (y: tensor)")),
    bad_list(14, Once("fragment f(x: extent = @-#c\n0000000000002147483649) -> (y: tensor)")),
    bad_list(14, Once("fragment f(x: extent = @-4294967295) -> (y: tensor)")),
    bad_list(14, Once("fragment f(x: extent = @-4294967296) -> (y: tensor)")),
    bad_list(14, Once("fragment f(x: extent = @-9999999999) -> (y: tensor)")),
    bad_list(14, Once("fragment f(x: extent = @-1000000000000000000000) -> (y: tensor)")),
    bad_list(14, Once("fragment f(x: extent = @-1.5) -> (y: tensor)")),
    bad_list(14, Once("fragment f(x: extent = @-2.0) -> (y: tensor)")),
    bad_list(14, Once("fragment f(x: extent = @-1e3) -> (y: tensor)")),
    bad_list(14, Once("fragment f(x: extent = @-0.0) -> (y: tensor)")),
    bad_list(14, Once("fragment f(x: extent = @-0e5) -> (y: tensor)")),
    bad_list(14, Once("fragment f(x: logical = @-1) -> (y: tensor)")),
    bad_list(14, Once("fragment f(x: logical = @-0) -> (y: tensor)")),
    bad_list(14, Once("fragment f(x: string = @-1) -> (y: tensor)")),
    bad_list(14, Once("fragment f(x: string = @- 1.5) -> (y: tensor)")),
    bad_list(14, Once("fragment f(x: extent[] = @-1) -> (y: tensor)")),
    bad_list(14, Once("fragment f(x: tensor[] = @-1) -> (y: tensor)")),
    bad_list(14, Once("fragment f(x: extent = @[-1]) -> (y: tensor)")),
    bad_list(14, Once("fragment f(x: extent[] = @[1, -2147483649]) -> (y: tensor)")),
    bad_list(14, Once("fragment f(x: extent[] = @[-2147483648, 2147483648]) -> (y: tensor)")),
    bad_list(14, Once("fragment f(x: extent[] = @[-1, -2.0]) -> (y: tensor)")),
    bad_list(14, Once("fragment f(x: logical[] = @[-1]) -> (y: tensor)")),
    bad_list(14, Once("fragment f(x: string[] = @[-1]) -> (y: tensor)")),
    bad_list(14, Once("fragment f(x: extent[][] = @[-1]) -> (y: tensor)")),
    bad_list(14, Once("fragment f(x: extent[] = @[[-1]]) -> (y: tensor)")),
    bad_list(14, Once("fragment f(x: (extent, scalar) = @(-1.5, 2)) -> (y: tensor)")),
    bad_list(14, Once("fragment f(x: (extent, scalar)[] = @[(-1, -2), (-2147483649, 0)]) -> (y: tensor)")),
    bad_list(14, Once("fragment f(x: (extent, logical) = @(-1, -1)) -> (y: tensor)")),
    bad_list(14, Once("fragment f(x: (extent, extent) = @-1) -> (y: tensor)")),
    bad_list(14, Once("fragment f(x: extent = 1, z: extent = @-1.0, w: extent = 1.0) -> (y: tensor)")),
    // The fault with the smallest position is given.
    bad_list(14, Once("fragment f(x: extent = @1.5, x: extent) -> (y: tensor)")),
    bad_list(13, Once("fragment f(x: extent, @x: extent = 1.5) -> (y: tensor)")),
    bad_list(14, Pieces(&[("fragment f(p: tensor = @'s'", 1), (", p%: tensor", 32), (") -> (y: tensor)", 1)])),
    bad_list(13, Pieces(&[("fragment f(x: tensor, @x: tensor) -> (y: tensor) ", 1), ("fragment f%(x: tensor) -> (y: tensor) ", 128)])),    bad_list(12, Pieces(&[("fragment f(p: tensor", 1), (", p%: tensor", 31), (", @q: tensor) -> (y: tensor) fragment f(x: tensor) -> (y: tensor)", 1)])),
    bad_list(12, Pieces(&[("fragment f(p: tensor", 1), (", p%: tensor", 31), (", @q: tensor, r: tensor = 's') -> (y: tensor)", 1)])),
    bad_list(13, Once("fragment f(x: tensor, @x: tensor) -> (y: tensor) fragment g(x: extent = 1.5) -> (y: tensor)")),
    bad_list(14, Once("fragment f(x: extent = @1.5) -> (y: tensor) fragment f(x: tensor) -> (x: tensor)")),
];

#[rustfmt::skip]
pub const PAIRS: &[PairCase] = &[
    // The worked example.
    good(EXAMPLE_LIST, EXAMPLE, &[[0, 42, 1, 0], [1, 72, 1, 1]], &[[78, 0]]),
    good(EXAMPLE_LIST, CANONICAL_EXAMPLE, &[[0, 38, 1, 0], [1, 65, 1, 1]], &[[73, 0]]),
    // The source's example, with its own operations.
    good(
        Once(
            "fragment foo( input: tensor, size: extent[] = [1] ) -> ( output: tensor ) \
             fragment bar( input: tensor, alpha: scalar = 0.5 ) -> ( output: tensor, extra: tensor ) \
             fragment external( shape: extent[] ) -> ( output: tensor )",
        ),
        Once(
            "version 1.0\ngraph barfoo( input ) -> ( output )\n{\n    input = external(shape = [1,10])\n    \
             intermediate, extra = bar(input, alpha = 2)\n    output = foo(intermediate, size = [3,5])\n}\n",
        ),
        &[[2, 62, 1, 0], [1, 113, 2, 1], [0, 148, 1, 1]],
        &[[117, 0], [152, 1]],
    ),
    good(
        OPERATIONS,
        Body("b,c=split(a,parts=2)[z]=items([a,b,c,a])"),
        &[[0, 30, 1, 0], [2, 54, 2, 1], [3, 74, 1, 4]],
        &[[60, 0], [81, 0], [83, 1], [85, 1], [87, 0]],
    ),
    // Left sides: bare and bracketed tuples, arrays, items of any pattern.
    counted(2, OPERATIONS, Body("(z,b)=split(a,parts=2)")),
    counted(2, OPERATIONS, Body("(z,b),c=nest((a,[]));")),
    counted(2, OPERATIONS, Body("((z,b),c)=nest((a,[a,a]))")),
    counted(3, OPERATIONS, Body("[]=items([]) z=scale(a)")),
    counted(3, OPERATIONS, Body("[]=sizes(a);z=scale(a);")),
    counted(2, OPERATIONS, Body("[b,z]=items(x=[a,1,2.5,true])")),
    // Arguments: positional, named in any order, defaults.
    counted(2, OPERATIONS, Body("z=both(a)")),
    counted(2, OPERATIONS, Body("z=both(a,a)")),
    counted(2, OPERATIONS, Body("z=both(a,y=1)")),
    counted(2, OPERATIONS, Body("z=both(y=a)")),
    counted(2, OPERATIONS, Body("z=late(y=a)")),
    counted(2, OPERATIONS, Body("z=label(a,at=0,flag=false,name='n')")),
    counted(2, OPERATIONS, Body("z=pads(a,pad=[(1,2),(3,4.5)])")),
    counted(2, OPERATIONS, Body("z=scale(by=2147483648,x=true)")),
    // An identifier may have any name that is no keyword.
    counted(4, OPERATIONS, Body("external=scale(a)scale=both(external,y=a)z=both(x=external,y=scale)")),
    // 1: a lent table or work area is too short.
    lent([16_383, 16_384, 1_536, 2_048], bad(1, EXAMPLE_LIST, EXAMPLE)),
    lent([16_384, 16_383, 1_536, 2_048], bad(1, EXAMPLE_LIST, EXAMPLE)),
    lent([16_384, 16_384, 1_535, 2_048], bad(1, EXAMPLE_LIST, EXAMPLE)),
    lent([16_384, 16_384, 1_536, 2_047], bad(1, EXAMPLE_LIST, EXAMPLE)),
    lent([0, 0, 0, 0], bad(1, EXAMPLE_LIST, EXAMPLE)),
    lent([16_384, 16_384, 1_535, 2_048], bad(1, Pieces(&[(" ", 16_385)]), Once("$"))),
    lent([16_390, 16_400, 1_540, 2_050], good(EXAMPLE_LIST, EXAMPLE, &[[0, 42, 1, 0], [1, 72, 1, 1]], &[[78, 0]])),
    lent([16_390, 16_400, 1_540, 2_050], bad(15, EXAMPLE_LIST, Body("z=@f(a)"))),
    // 2: a text is too long; the list comes first.
    long(1, Pieces(&[(" ", 16_385)]), Once("$")),
    long(1, Pieces(&[(" ", 16_385)]), Pieces(&[(" ", 16_385)])),
    long(2, Once("$"), Pieces(&[(" ", 16_385)])),
    lent([16_390, 16_400, 1_540, 2_050], long(2, EXAMPLE_LIST, Pieces(&[(" ", 20_000)]))),
    counted(2, EXAMPLE_LIST, Pieces(&[(" ", 16_292), ("version 1.0 graph win(px) -> (out) { px = external(shape=[01,9]); out = scale(px, by=0.50) }", 1)])),
    // Stages: the list's bytes, syntax and rules, then the document's.
    bad(3, Once("x @$"), Once("$")),
    bad(9, Once("@x"), Once("$")),
    bad(14, Once("fragment f(x: extent = @1.5) -> (y: tensor)"), Once("$")),
    bad(3, OPERATIONS, Once("x @$")),
    bad(4, OPERATIONS, Body("z=scale(a,by=@1e)")),
    bad(5, OPERATIONS, Body("z=@'ab;")),
    bad(6, OPERATIONS, Pieces(&[("version 1.0 graph @", 1), ("g", 65)])),
    counted(2, OPERATIONS, Pieces(&[("version 1.0 graph ", 1), ("g", 64), ("(a)->(z){a=external(shape=[1]);z=scale(a)}", 1)])),
    bad(7, OPERATIONS, Body("z=scale(a,by=@1e1000)")),
    counted(2, OPERATIONS, Body("z=scale(a,by=1e999)")),
    bad(8, OPERATIONS, Pieces(&[(";", 4_096), ("@;", 1)])),
    bad(9, OPERATIONS, Once("version 2.0 graph g(a,a)->(z){z=f(a)@")),
    // 9: the version and the header.
    bad(9, Once(""), Once("@")),
    bad(9, OPERATIONS, Once("# no more than a comment@")),
    bad(9, OPERATIONS, Once("@graph g(a)->(z){z=f(a)}")),
    bad(9, OPERATIONS, Once("version@")),
    bad(9, OPERATIONS, Once("version @graph g(a)->(z){z=f(a)}")),
    bad(9, OPERATIONS, Once("version @'1.0' graph g(a)->(z){z=f(a)}")),
    bad(9, OPERATIONS, Once("version 1.0 @;graph g(a)->(z){z=f(a)}")),
    bad(9, OPERATIONS, Once("version 1.0 @fragment f(x: tensor)->(y: tensor) graph g(a)->(z){z=f(a)}")),
    bad(9, OPERATIONS, Once("version 1.0 @version 1.0")),
    bad(9, OPERATIONS, Once("version 1.0 graph @(a)->(z){z=f(a)}")),
    bad(9, OPERATIONS, Once("version 1.0 graph g(@)->(z){z=f(a)}")),
    bad(9, OPERATIONS, Once("version 1.0 graph g(a,@)->(z){z=f(a)}")),
    bad(9, OPERATIONS, Once("version 1.0 graph g(a@:tensor)->(z){z=f(a)}")),
    bad(9, OPERATIONS, Once("version 1.0 graph g(@[a])->(z){z=f(a)}")),
    bad(9, OPERATIONS, Once("version 1.0 graph g(a)->(@){z=f(a)}")),
    bad(9, OPERATIONS, Once("version 1.0 graph g(a)->@z{z=f(a)}")),
    bad(9, OPERATIONS, Once("version 1.0 graph g(a)->(z)@;{z=f(a)}")),
    bad(9, OPERATIONS, Once("version 1.0 graph g(a)->(z)@")),
    // 9: the body.
    bad(9, OPERATIONS, Once("version 1.0 graph g(a)->(z){@}")),
    bad(9, OPERATIONS, Once("version 1.0 graph g(a)->(z){@;z=f(a)}")),
    bad(9, OPERATIONS, Once("version 1.0 graph g(a)->(z){z@}")),
    bad(9, OPERATIONS, Once("version 1.0 graph g(a)->(z){z=@}")),
    bad(9, OPERATIONS, Once("version 1.0 graph g(a)->(z){z=a@,b}")),
    bad(9, OPERATIONS, Body("z=scale(a);@;")),
    bad(9, OPERATIONS, Body("z=scale(a)@,")),
    bad(9, OPERATIONS, Body("z@==scale(a)")),
    bad(9, OPERATIONS, Body("z=scale@;")),
    bad(9, OPERATIONS, Body("z=@1")),
    bad(9, OPERATIONS, Body("z=@[a]")),
    bad(9, OPERATIONS, Body("z=@shape_of(a)")),
    bad(9, OPERATIONS, Body("z=scale(a)}@;")),
    bad(9, OPERATIONS, Body("z=scale(a)}@graph g(a)->(z){z=scale(a)")),
    bad(9, OPERATIONS, Once("version 1.0 graph g(a)->(z){z=f(a) @")),
    // 9: left sides.
    bad(9, OPERATIONS, Body("@1=scale(a)")),
    bad(9, OPERATIONS, Body("@true=scale(a)")),
    bad(9, OPERATIONS, Body("(z@)=scale(a)")),
    bad(9, OPERATIONS, Body("(@)=scale(a)")),
    bad(9, OPERATIONS, Body("z,@=scale(a)")),
    bad(9, OPERATIONS, Body("(z,b@=scale(a)")),
    bad(9, OPERATIONS, Body("z,b@)=scale(a)")),
    bad(9, OPERATIONS, Body("[z,@]=scale(a)")),
    bad(9, OPERATIONS, Body("[z,@1]=scale(a)")),
    bad(9, OPERATIONS, Body("z@[1]=scale(a)")),
    // 9: arguments.
    bad(9, OPERATIONS, Body("z=scale(@)")),
    bad(9, OPERATIONS, Body("z=scale(a,@)")),
    bad(9, OPERATIONS, Body("z=scale(a @b)")),
    bad(9, OPERATIONS, Body("z=scale(x=@)")),
    bad(9, OPERATIONS, Body("z=scale(x=a@=b)")),
    bad(9, OPERATIONS, Body("z=scale(1@=a)")),
    bad(9, OPERATIONS, Body("z=scale(@in=a)")),
    bad(9, OPERATIONS, Body("z=scale(a@+1)")),
    bad(9, OPERATIONS, Body("z=scale(a@[1])")),
    bad(9, OPERATIONS, Body("z=scale(scale@(a))")),
    bad(9, OPERATIONS, Body("z=scale(@tensor)")),
    bad(9, OPERATIONS, Body("z=scale((a@))")),
    bad(9, OPERATIONS, Body("z=scale((a,@))")),
    bad(9, OPERATIONS, Body("z=scale([a,@])")),
    bad(9, OPERATIONS, Body("z=scale([a@;])")),
    bad(9, OPERATIONS, Body("z=scale([x@=a])")),
    bad(9, OPERATIONS, Body("z=scale([a @for a in a])")),
    // 9: a sign is good where a literal may stand, and has a number behind it.
    good(OPERATIONS, Body("z,b=split(a,parts=-1)"), &[[0, 30, 1, 0], [2, 54, 2, 1]], &[[60, 0]]),
    good(OPERATIONS, Body("z=both(-1,a)"), &[[0, 30, 1, 0], [4, 52, 1, 1]], &[[60, 0]]),
    counted(2, OPERATIONS, Body("z=scale(-1)")),
    counted(2, OPERATIONS, Body("z=scale(- 1)")),
    counted(2, OPERATIONS, Body("z=scale(-#c\n1)")),
    counted(2, OPERATIONS, Body("z=scale(a,by=\t-\n# c\n\r2.5e-1)")),
    counted(2, OPERATIONS, Body("z=both(y=-1,x=- 2)")),
    counted(2, OPERATIONS, Body("[z]=items([-1,a,- 2.5,-0])")),
    counted(2, OPERATIONS, Body("(b,z),c=nest((-1,[a,-1]))")),
    counted(2, OPERATIONS, Body("z=late(x=(-1,-1),y=-1)")),
    counted(2, OPERATIONS, Body("z=pads(-1,pad=[(-1,-2),(-0,-4.5)])")),
    bad(9, OPERATIONS, Body("z=scale(-@-1)")),
    bad(9, OPERATIONS, Body("z=scale(- @- 1)")),
    bad(9, OPERATIONS, Body("z=scale(-@true)")),
    bad(9, OPERATIONS, Body("z=scale(-@a)")),
    bad(9, OPERATIONS, Body("z=scale(-@x=1)")),
    bad(9, OPERATIONS, Body("z=scale(-@x=-1)")),
    bad(9, OPERATIONS, Body("z=scale(-@'s')")),
    bad(9, OPERATIONS, Body("z=scale(-@[1])")),
    bad(9, OPERATIONS, Body("z=scale(-@(1,2))")),
    bad(9, OPERATIONS, Body("z=scale(-@scale(a))")),
    bad(9, OPERATIONS, Body("z=scale(@->1)")),
    bad(9, OPERATIONS, Body("z=scale(-@->1)")),
    bad(9, OPERATIONS, Body("z=scale(- @>1)")),
    bad(9, OPERATIONS, Body("z=scale(-@)")),
    bad(9, OPERATIONS, Body("z=scale(-@,a)")),
    bad(9, OPERATIONS, Body("z=scale(-@=a)")),
    bad(9, OPERATIONS, Body("z=scale(-@in)")),
    bad(9, OPERATIONS, Body("z=scale(-@tensor)")),
    bad(9, OPERATIONS, Body("z=scale(-@;)")),
    bad(9, OPERATIONS, Body("z=scale(-@}")),
    bad(9, OPERATIONS, Body("z=scale(a,by=-@)")),
    bad(9, OPERATIONS, Body("z=scale(a,by=-@,x=1)")),
    bad(9, OPERATIONS, Body("z=scale(a,by=-@-1)")),
    bad(9, OPERATIONS, Body("z=scale(a,by=-@by)")),
    bad(9, OPERATIONS, Body("z=scale(@+1)")),
    bad(9, OPERATIONS, Body("z=scale(-@+1)")),
    bad(9, OPERATIONS, Body("z=scale(@+-1)")),
    bad(9, OPERATIONS, Body("z=scale(a,by=@+1)")),
    bad(9, OPERATIONS, Body("z=scale(@!1)")),
    bad(9, OPERATIONS, Body("z=scale(a@-1)")),
    bad(9, OPERATIONS, Body("z=scale(1@-1)")),
    bad(9, OPERATIONS, Body("z=scale(-1@-1)")),
    bad(9, OPERATIONS, Body("z=scale(-1 @1)")),
    bad(9, OPERATIONS, Body("z=scale(a,by=1 @- 1)")),
    bad(9, OPERATIONS, Body("z=scale(-1@=a)")),
    bad(9, OPERATIONS, Body("z=scale(by@-1)")),
    bad(9, OPERATIONS, Body("z=scale(a,by@- =1)")),
    bad(9, OPERATIONS, Body("[z]=items([-@])")),
    bad(9, OPERATIONS, Body("[z]=items([1,-@,1])")),
    bad(9, OPERATIONS, Body("[z]=items([1@-1])")),
    bad(9, OPERATIONS, Body("[z]=items([-1@-1])")),
    bad(9, OPERATIONS, Body("[z]=items([-@[1]])")),
    bad(9, OPERATIONS, Body("z=late((-1@),a)")),
    bad(9, OPERATIONS, Body("z=late((@),a)")),
    bad(9, OPERATIONS, Body("z=late((-@,1),a)")),
    bad(9, OPERATIONS, Body("z=late(([]@-1),a)")),
    bad(9, OPERATIONS, Once("version 1.0 graph g(a)->(z){z=f(-@")),
    bad(9, OPERATIONS, Once("version 1.0 graph g(a)->(z){z=f(a,by=- # the end\n @")),
    // 9: elsewhere the sign itself is at fault, whatever follows.
    bad(9, OPERATIONS, Body("@-1=scale(a)")),
    bad(9, OPERATIONS, Body("@-z=scale(a)")),
    bad(9, OPERATIONS, Body("[@-1]=scale(a)")),
    bad(9, OPERATIONS, Body("[z,@-1]=items([])")),
    bad(9, OPERATIONS, Body("[@-z]=items([])")),
    bad(9, OPERATIONS, Body("(z,@-1)=split(a,parts=1)")),
    bad(9, OPERATIONS, Body("z,@-1=split(a,parts=1)")),
    bad(9, OPERATIONS, Body("z@-1=scale(a)")),
    bad(9, OPERATIONS, Body("@-")),
    bad(9, OPERATIONS, Body("z=@-scale(a)")),
    bad(9, OPERATIONS, Body("z=@-1")),
    bad(9, OPERATIONS, Body("z=@-a")),
    bad(9, OPERATIONS, Body("z=scale@-(a)")),
    bad(9, OPERATIONS, Body("z=scale(a)@-1")),
    bad(9, OPERATIONS, Body("z=scale(a);@-1")),
    bad(9, OPERATIONS, Body("z=scale(a)}@-1")),
    bad(9, OPERATIONS, Once("@-1.0 graph g(a)->(z){z=f(a)}")),
    bad(9, OPERATIONS, Once("version @-1.0 graph g(a)->(z){z=f(a)}")),
    bad(9, OPERATIONS, Once("version @- 1.0 graph g(a)->(z){z=f(a)}")),
    bad(9, OPERATIONS, Once("version @- x")),
    bad(9, OPERATIONS, Once("version @-")),
    bad(9, OPERATIONS, Once("version @--1.0")),
    bad(9, OPERATIONS, Once("version 1.0 @-1 graph g(a)->(z){z=f(a)}")),
    bad(9, OPERATIONS, Once("version 1.0@-1 graph g(a)->(z){z=f(a)}")),
    bad(9, OPERATIONS, Once("version 1.0 graph @-g(a)->(z){z=f(a)}")),
    bad(9, OPERATIONS, Once("version 1.0 graph g@-(a)->(z){z=f(a)}")),
    bad(9, OPERATIONS, Once("version 1.0 graph g(@-1)->(z){z=f(a)}")),
    bad(9, OPERATIONS, Once("version 1.0 graph g(a,@-a)->(z){z=f(a)}")),
    bad(9, OPERATIONS, Once("version 1.0 graph g(a)@- >(z){z=f(a)}")),
    bad(9, OPERATIONS, Once("version 1.0 graph g(a)->(@-z){z=f(a)}")),
    bad(9, OPERATIONS, Once("version 1.0 graph g(a)->(z)@-{z=f(a)}")),
    // 4, 6, 7 and 8: the number has its own place and sizes, the sign is a token.
    bad(4, OPERATIONS, Body("z=scale(a,by=-@1e)")),
    bad(4, OPERATIONS, Body("z=scale(- @1.)")),
    bad(4, OPERATIONS, Body("-1=scale(--@1x)")),
    bad(7, OPERATIONS, Body("z=scale(a,by=-@1e1000)")),
    bad(7, OPERATIONS, Body("z=scale(-@1234567890123456789)")),
    counted(2, OPERATIONS, Body("z=scale(-123456789012345678)")),
    counted(2, OPERATIONS, Pieces(&[("version 1.0 graph g(a)->(z){a=external(shape=[-", 1), ("0", 64), ("])z=scale(a)}", 1)])),
    bad(6, OPERATIONS, Pieces(&[("version 1.0 graph g(a)->(z){a=external(shape=[-@", 1), ("0", 65), ("])z=scale(a)}", 1)])),
    counted(2, OPERATIONS, Pieces(&[("version 1.0 graph g(a)->(z){a=external(shape=[1", 1), (",1", 2_033), ("])z=scale(a);}", 1)])),
    bad(8, OPERATIONS, Pieces(&[("version 1.0 graph g(a)->(z){a=external(shape=[-1", 1), (",1", 2_033), ("])z=scale(a);@}", 1)])),
    // 10: eight brackets may be open, a ninth may not; headers and calls open none.
    counted(2, DEEP, Body("[[[[[[[[z]]]]]]]]=deep([[[[[[[[a]]]]]]]])")),
    counted(2, DEEP, Body("[[[[[[[[z]]]]]]]]=deep([[[[[[[[-1,a,-2]]]]]]]])")),
    bad(9, DEEP, Body("z=deep([[[[[[[[-@[")),
    bad(10, DEEP, Body("[[[[[[[[@[z]]]]]]]]]=deep(a)")),
    bad(10, DEEP, Body("z=deep([[[[[[[[@[a]]]]]]]]])")),
    bad(10, DEEP, Body("z=deep(x=((((((((@(a,")),
    bad(10, DEEP, Body("z=deep(([([([([@[;")),
    counted(2, DEEP, Body("[[[[[[[[z]]]]]]]],[]=two(a)")),
    bad(10, DEEP, Body("([[[[[[[@[z]]]]]]]],[])=two(a)")),
    bad(9, DEEP, Body("z=deep([[[[[[[[a@[")),
    bad(9, DEEP, Body("z=@;deep([[[[[[[[[a]]]]]]]]])")),
    counted(3, OPERATIONS, Body("[]=items([1,2,3,4,5,6,7,8,9])z=scale(a)")),
    bad(18, OPERATIONS, Body("[z]=items(@[[],[],[],[],[],[],[],[],[]])")),
    // 11: the version.
    bad(11, OPERATIONS, Once("version @1 graph g(a)->(z){a=external(shape=[1]) z=scale(a)}")),
    bad(11, OPERATIONS, Once("version @1.00 graph g(a)->(z){a=external(shape=[1]) z=scale(a)}")),
    bad(11, OPERATIONS, Once("version @01.0 graph g(a)->(z){a=external(shape=[1]) z=scale(a)}")),
    bad(11, OPERATIONS, Once("version @1.0e0 graph g(a)->(z){a=external(shape=[1]) z=scale(a)}")),
    bad(11, OPERATIONS, Once("version @10e-1 graph g(a,a)->(z){z=f(q)}")),
    // 12: a count above its size.
    counted(2, ARRAY_EXTERNAL, Pieces(&[("version 1.0 graph g(a", 1), (",a%", 31), (")->(z){[a", 1), (",a%", 31), ("]=external(shape=[]) z=scale(a)}", 1)])),
    bad(12, ARRAY_EXTERNAL, Pieces(&[("version 1.0 graph g(a", 1), (",a%", 31), (",@b)->(z){[a", 1), (",a%", 31), (",b]=external(shape=[]) z=scale(a)}", 1)])),
    counted(2, OPERATIONS, Pieces(&[("version 1.0 graph g(a)->(z", 1), (",z%", 31), ("){a=external(shape=[]) [z", 1), (",z%", 31), ("]=items([])}", 1)])),
    bad(12, OPERATIONS, Pieces(&[("version 1.0 graph g(a)->(z", 1), (",z%", 31), (",@y){a=external(shape=[]) [z", 1), (",z%", 31), (",y]=items([])}", 1)])),
    bad(12, OPERATIONS, Pieces(&[("version 1.0 graph g(a)->(z", 1), (",z%", 31), (",@z,z){a=external(shape=[]) [z", 1), (",z%", 31), ("]=items([])}", 1)])),
    counted(384, OPERATIONS, Pieces(&[("version 1.0 graph g(a)->(z){a=external(shape=[]) z=scale(a)", 1), ("c%=scale(a)", 382), ("}", 1)])),
    bad(12, OPERATIONS, Pieces(&[("version 1.0 graph g(a)->(z){a=external(shape=[]) z=scale(a)", 1), ("c%=scale(a)", 382), ("@c=scale(a)}", 1)])),
    bad(12, OPERATIONS, Pieces(&[("version 1.0 graph g(a)->(z){a=external(shape=[]) z=scale(a)", 1), ("c%=scale(a)", 382), ("@(z,a)=scale(q)}", 1)])),
    counted(3, OPERATIONS, Pieces(&[("version 1.0 graph g(a)->(z){a=external(shape=[])z=scale(1)[", 1), ("c%,", 1_021), ("c]=items([])}", 1)])),
    bad(12, OPERATIONS, Pieces(&[("version 1.0 graph g(a)->(z){a=external(shape=[])z=scale(1)[", 1), ("c%,", 1_021), ("c,@d]=items([])}", 1)])),
    bad(12, OPERATIONS, Pieces(&[("version 1.0 graph g(a)->(z){a=external(shape=[])z=scale(1)[", 1), ("c%,", 1_021), ("c]=items([]) @z=scale(1)}", 1)])),
    counted(3, OPERATIONS, Pieces(&[("version 1.0 graph g(a)->(z){a=external(shape=[])z=scale(a)[]=items([a", 1), (",a", 1_022), ("])}", 1)])),
    bad(12, OPERATIONS, Pieces(&[("version 1.0 graph g(a)->(z){a=external(shape=[])z=scale(a)[]=items([a", 1), (",a", 1_022), (",@a])}", 1)])),
    bad(12, OPERATIONS, Pieces(&[("version 1.0 graph g(a)->(z){a=external(shape=[])z=scale(a)[]=items([a", 1), (",a", 1_022), ("])b=both(1,2,@a)}", 1)])),
    // 12 stops nothing: the input that only call 385 assigns is assigned.
    bad(12, OPERATIONS, Pieces(&[("version 1.0 graph g(a,b)->(z){a=external(shape=[])z=scale(a)", 1), ("c%=scale(a)", 382), ("@b=external(shape=[])}", 1)])),
    bad(12, OPERATIONS, Pieces(&[("version 1.0 graph g(a)->(z){a=external(shape=[])b=scale(a)", 1), ("c%=scale(a)", 382), ("@z=scale(a)}", 1)])),
    // 13: a name repeated in the header.
    bad(13, OPERATIONS, Once("version 1.0 graph g(a,@a)->(z){a=external(shape=[1])z=scale(a)}")),
    bad(13, OPERATIONS, Once("version 1.0 graph g(a)->(@a){a=external(shape=[1])}")),
    bad(13, OPERATIONS, Once("version 1.0 graph g(a)->(z,@z){a=external(shape=[1])z=scale(a)}")),
    bad(13, OPERATIONS, Once("version 1.0 graph g(a)->(z,y,@z,y){a=external(shape=[1])z,y=split(a,parts=2)}")),
    counted(2, OPERATIONS, Once("version 1.0 graph a(a)->(A){a=external(shape=[1])A=scale(a)}")),
    // 15: an operation that is not declared has no argument or left-side faults.
    bad(15, OPERATIONS, Body("z=@f(a)")),
    bad(15, OPERATIONS, Body("z=@Scale(a)")),
    bad(15, OPERATIONS, Body("(z,b)=@f(1,x=2,3,x='s',q)")),
    bad(15, OPERATIONS, Body("b=@f(1)z=scale(b)c=g(z)")),
    bad(15, NO_EXTERNAL, Once("version 1.0 graph g(a)->(z){a=@external(shape=[1])z=scale(a)}")),
    bad(15, Once(""), Once("version 1.0 graph g(a)->(z){a=@external(shape=[1])z=scale(a)}")),
    // Its identifiers still count.
    bad(12, OPERATIONS, Pieces(&[("version 1.0 graph g(a)->(c0){a=external(shape=[1])[", 1), ("c%,", 1_023), ("@c]=f(1)}", 1)])),
    bad(21, OPERATIONS, Body("z=scale(a);@z=f(a)")),
    bad(21, OPERATIONS, Body("z,@z=f(a)")),
    bad(15, OPERATIONS, Body("z=@f(q)")),
    bad(23, OPERATIONS, Once("version 1.0 graph g(a)->(z){@a=f(1)z=scale(a)}")),
    bad(23, OPERATIONS, Once("version 1.0 graph g(a,@b)->(z){a=f(1)z=scale(a)}")),
    bad(24, OPERATIONS, Once("version 1.0 graph g(a)->(@z){a=external(shape=[1])b=f(a)}")),
    bad(15, OPERATIONS, Once("version 1.0 graph g(a)->(z){a=external(shape=[1])z=@f(a)}")),
    // 16: positional arguments.
    bad(16, OPERATIONS, Body("z=both(y=a,@a)")),
    bad(16, OPERATIONS, Body("z=both(x=a,@1)")),
    bad(16, OPERATIONS, Body("z=both(a,a,@a)")),
    bad(16, OPERATIONS, Body("z=both(a,a,@[1,2],3)")),
    bad(16, OPERATIONS, Body("z=scale(a,@2)")),
    bad(16, OPERATIONS, Body("z=scale(a,@a)")),
    bad(16, OPERATIONS, Body("z=scale(a,@2,by=3)")),
    bad(16, OPERATIONS, Body("z=pads(a,@[])")),
    bad(16, OPERATIONS, Body("z=late(@(a,1),y=a)")),
    bad(16, OPERATIONS, Body("z=both(a,a,@q)")),
    bad(16, OPERATIONS, Body("z=scale(a,@-2)")),
    bad(16, OPERATIONS, Body("z=scale(a,@- 2)")),
    bad(16, OPERATIONS, Body("z=scale(-1,@-#c\n2,by=-3)")),
    bad(16, OPERATIONS, Body("z=both(y=a,@-1)")),
    bad(16, OPERATIONS, Body("z=both(-1,-2,@-3)")),
    bad(16, OPERATIONS, Body("z=pads(a,@-1)")),
    bad(16, OPERATIONS, Body("z=pads(a,@[(-1,-1)])")),
    bad(16, OPERATIONS, Body("z=late(@(-1,-1),y=a)")),
    // A positional value for a required parameter that is not all tensor binds nothing.
    unbound(0, Once("version 1.0 graph g(a)->(z){a=@external([1])z=scale(a)}")),
    unbound(1, Body("z,b=@split(a,2)")),
    unbound(1, Body("z,b=@split(a,-2)")),
    unbound(0, Body("z=@scale(by=2,a)")),
    // After a named argument none is positional, even after one that binds nothing.
    unbound(1, Body("z=@late(to=1,a)")),
    unbound(1, Body("z=@late(x=(a,1),a)")),
    // 17: named arguments.
    bad(17, OPERATIONS, Body("z=scale(a,@to=1)")),
    bad(17, OPERATIONS, Body("z=scale(a,@By=1)")),
    bad(17, OPERATIONS, Body("z=scale(a,@x=a)")),
    bad(17, OPERATIONS, Body("z=scale(a,by=1,@by=2)")),
    bad(17, OPERATIONS, Body("z=scale(x=a,@x=a)")),
    bad(17, OPERATIONS, Body("z=scale(a,@y=a)")),
    bad(17, OPERATIONS, Body("z=scale(a,@to=q)")),
    bad(17, OPERATIONS, Body("z=both(@to=1,a)")),
    bad(17, OPERATIONS, Body("z=scale(a,@to=-1)")),
    bad(17, OPERATIONS, Body("z=scale(-1,@x=-1)")),
    unbound(0, Body("z=@scale(to=a)")),
    unbound(0, Body("z=@scale(to=a,by=1)")),
    // 18: values that do not fit.
    bad(18, OPERATIONS, Body("z=scale(a,by=@true)")),
    bad(18, OPERATIONS, Body("z=scale(a,by=@'1')")),
    bad(18, OPERATIONS, Body("z=scale(a,by=@a)")),
    bad(18, OPERATIONS, Body("z=scale(a,by=@q)")),
    bad(18, OPERATIONS, Body("z=scale(a,by=@[1])")),
    bad(18, OPERATIONS, Body("z=scale(@'s')")),
    bad(18, OPERATIONS, Body("z=scale(@[a])")),
    bad(18, OPERATIONS, Body("z=scale(@(a,a))")),
    bad(18, OPERATIONS, Body("z=scale(x=@[])")),
    bad(18, OPERATIONS, Body("[z]=items(@a)")),
    bad(18, OPERATIONS, Body("[z]=items(@[a,'s'])")),
    bad(18, OPERATIONS, Body("[z]=items(@[a,[a]])")),
    bad(18, OPERATIONS, Body("(b,c),z=nest(@(a,a))")),
    bad(18, OPERATIONS, Body("(b,c),z=nest(@(a,[a],a))")),
    bad(18, OPERATIONS, Body("(b,c),z=nest(@[a,[a]])")),
    bad(18, OPERATIONS, Body("z=label(a,name=@n,at=1)")),
    bad(18, OPERATIONS, Body("z=label(a,name='n',flag=@1,at=1)")),
    bad(18, OPERATIONS, Body("z=label(a,name='n',at=@1.0)")),
    counted(2, OPERATIONS, Body("z=label(a,name='n',at=2147483647)")),
    bad(18, OPERATIONS, Body("z=label(a,name='n',at=@2147483648)")),
    bad(18, OPERATIONS, Body("z=pads(a,pad=@[(1.5,2)])")),
    bad(18, OPERATIONS, Body("z=pads(a,pad=@[(1,2),(1,2,3)])")),
    bad(18, OPERATIONS, Body("z=scale(a,by=@true,by=2)")),
    // 18: negative numbers; the place of one that is a value itself is its sign.
    counted(2, OPERATIONS, Body("z=label(a,name='n',at=-2147483648)")),
    counted(2, OPERATIONS, Body("z=label(a,name='n',at=-2147483647)")),
    counted(2, OPERATIONS, Body("z=label(a,name='n',at=- 0002147483648)")),
    counted(2, OPERATIONS, Body("z=label(a,name='n',at=-0)")),
    counted(2, OPERATIONS, Body("z=scale(-2147483649,by=-2147483649)")),
    counted(2, OPERATIONS, Body("z=both(-0.0,-0e5)")),
    bad(18, OPERATIONS, Body("z=label(a,name='n',at=@-2147483649)")),
    bad(18, OPERATIONS, Body("z=label(a,name='n',at=@- 2147483649)")),
    bad(18, OPERATIONS, Body("z=label(a,name='n',at=@-#c\n0002147483649)")),
    bad(18, OPERATIONS, Body("z=label(a,name='n',at=@-4294967296)")),
    bad(18, OPERATIONS, Body("z=label(a,name='n',at=@-10000000000)")),
    bad(18, OPERATIONS, Body("z=label(a,name='n',at=@-1.5)")),
    bad(18, OPERATIONS, Body("z=label(a,name='n',at=@-2147483648.0)")),
    bad(18, OPERATIONS, Body("z=label(a,name='n',at=@-0.0)")),
    bad(18, OPERATIONS, Body("z=label(a,name=@-1,at=1)")),
    bad(18, OPERATIONS, Body("z=label(a,name='n',flag=@-1,at=1)")),
    bad(18, OPERATIONS, Body("[z]=items(@-1)")),
    bad(18, OPERATIONS, Body("[z]=items(@[-1,[-1]])")),
    bad(18, OPERATIONS, Body("z=scale(@[-1])")),
    bad(18, OPERATIONS, Body("z=scale(@(-1,-1))")),
    bad(18, OPERATIONS, Body("z=scale(a,by=@[-1])")),
    bad(18, OPERATIONS, Body("(b,c),z=nest(@(-1,-2))")),
    bad(18, OPERATIONS, Body("(b,c),z=nest(@-1)")),
    bad(18, OPERATIONS, Body("z=pads(a,pad=@-1)")),
    bad(18, OPERATIONS, Body("z=pads(a,pad=@[(-1.5,-2)])")),
    bad(18, OPERATIONS, Body("z=pads(a,pad=@[(-1,-2),(-2147483649,0)])")),
    bad(18, OPERATIONS, Body("z=late(x=@(-1,-1.0),y=a)")),
    bad(18, OPERATIONS, Once("version 1.0 graph g(a)->(z){a=external(shape=@[1,-2147483649])z=scale(a)}")),
    bad(18, OPERATIONS, Once("version 1.0 graph g(a)->(z){a=external(shape=@-1)z=scale(a)}")),
    // 19: parameters without default, the first one by its index.
    unbound(0, Body("z=@scale(by=-2)")),
    unbound(0, Body("z=@scale(by=2)")),
    unbound(1, Body("z=@label(a)")),
    unbound(1, Body("z=@label(a,at=1)")),
    unbound(3, Body("z=@label(a,name='n')")),
    unbound(0, Body("z=@label(name='n',at=1)")),
    unbound(3, Body("z=@label(a,name=1,flag=2)")),
    unbound(1, Body("b,z=@split(q)")),
    // 20: left sides.
    bad(20, OPERATIONS, Body("@b,z=scale(a)")),
    bad(20, OPERATIONS, Body("@(b,z)=scale(a)")),
    bad(20, OPERATIONS, Body("@[z]=scale(a)")),
    bad(20, OPERATIONS, Body("@z=split(a,parts=2)")),
    bad(20, OPERATIONS, Body("@b,c,z=split(a,parts=2)")),
    bad(20, OPERATIONS, Body("@[b,z]=split(a,parts=2)")),
    bad(20, OPERATIONS, Body("@b,[z]=split(a,parts=2)")),
    bad(20, OPERATIONS, Body("@z=items([a])")),
    bad(20, OPERATIONS, Body("@b,z=items([a])")),
    bad(20, OPERATIONS, Body("@[b,[z]]=items([a])")),
    bad(20, OPERATIONS, Body("@(b,z)=nest((a,[]))")),
    bad(20, OPERATIONS, Body("@b,c,z=nest((a,[]))")),
    bad(20, OPERATIONS, Body("@[b,c],z=nest((a,[]))")),
    bad(20, OPERATIONS, Body("@z=size(a)")),
    bad(20, OPERATIONS, Body("@[]=size(a)z=scale(a)")),
    bad(20, OPERATIONS, Body("@[z]=sizes(a)")),
    bad(20, OPERATIONS, Body("@(z,a)=scale(a)")),
    bad(20,
        Once(
            "fragment bar( input: tensor, alpha: scalar = 0.5 ) -> ( output: tensor, extra: tensor[] ) \
             fragment external( shape: extent[] ) -> ( output: tensor )",
        ),
        Once("version 1.0 graph g(a)->(b){a=external(shape=[1,10]) @b,c=bar(a,alpha=2)}"),
    ),
    // 21: identifiers assigned again.
    bad(21, OPERATIONS, Body("z=scale(a)@z=scale(a)")),
    bad(21, OPERATIONS, Body("z,@z=split(a,parts=2)")),
    bad(21, OPERATIONS, Body("[z,b,c,@b]=items([a])")),
    bad(21, OPERATIONS, Body("@a=external(shape=[1])z=scale(a)")),
    bad(21, OPERATIONS, Body("@a=scale(a)z=scale(a)")),
    bad(20, OPERATIONS, Body("z=scale(a)@z=split(a,parts=2)")),
    // 22: identifiers used before they are assigned, or never assigned.
    bad(22, OPERATIONS, Body("z=scale(@z)")),
    bad(22, OPERATIONS, Body("z=scale(@b)b=scale(a)")),
    bad(22, OPERATIONS, Body("z=scale(@q)")),
    bad(22, OPERATIONS, Body("z=scale(@g)")),
    bad(22, OPERATIONS, Body("z=scale(@scale)")),
    bad(22, OPERATIONS, Body("z=both(a,y=@y)")),
    bad(22, OPERATIONS, Body("[z]=items([a,@b,c])")),
    bad(22, OPERATIONS, Body("(z,b),c=nest((a,[a,@c]))")),
    bad(22, OPERATIONS, Body("z=both(@q,a,a)")),
    bad(22, OPERATIONS, Once("version 1.0 graph g(a)->(z){z=scale(@a)a=external(shape=[1])}")),
    bad(22, OPERATIONS, Once("version 1.0 graph g(a)->(z){b=scale(@z)z=scale(b)a=external(shape=[1])}")),
    // A name assigned twice counts from its first assignment.
    bad(21, OPERATIONS, Body("z=scale(a)b=scale(z)@z=scale(b)")),
    // 23: inputs come from `external`, and nothing else does.
    bad(23, OPERATIONS, Once("version 1.0 graph g(@a)->(z){z=scale(1)}")),
    bad(23, OPERATIONS, Once("version 1.0 graph g(a,@b)->(z){a=external(shape=[1])z=scale(a)}")),
    bad(23, OPERATIONS, Once("version 1.0 graph g(a)->(z){@a=scale(1)z=scale(a)}")),
    bad(23, OPERATIONS, Body("@z=external(shape=[1])")),
    bad(23, OPERATIONS, Body("z=scale(a)@b=external(shape=[1])")),
    bad(23, ARRAY_EXTERNAL, Once("version 1.0 graph g(a,b)->(z){[b,@c,a]=external(shape=[])z=scale(a)}")),
    counted(2, ARRAY_EXTERNAL, Once("version 1.0 graph g(a,b)->(z){[b,a]=external(shape=[])z=scale(b)}")),
    counted(3, OPERATIONS, Once("version 1.0 graph g(a,b)->(z){b=external(shape=[])z=scale(b)a=external(shape=[])}")),
    // 24: outputs that are never assigned.
    bad(24, OPERATIONS, Once("version 1.0 graph g(a)->(@z){a=external(shape=[1])}")),
    bad(24, OPERATIONS, Once("version 1.0 graph g(a)->(z,@y){a=external(shape=[1])z=scale(a)}")),
    bad(24, OPERATIONS, Once("version 1.0 graph g(a)->(@g){a=external(shape=[1])g1=scale(a)}")),
    // The fault with the smallest position is given, then the smallest code.
    bad(24, OPERATIONS, Once("version 1.0 graph g(a)->(@z){a=external(shape=[1.5])b=f(q)}")),
    bad(23, OPERATIONS, Once("version 1.0 graph g(@a)->(z,z){b=f(q)}")),
    bad(13, OPERATIONS, Once("version 1.0 graph g(a)->(z,@z){z=f(q)a=external(shape=[1])}")),
    bad(22, OPERATIONS, Body("z=both(@q,y='s')b=f(a)")),
    bad(15, OPERATIONS, Body("z=@f(q)b=scale(q)")),
    unbound(3, Body("z=@label(q,to=1,name=1,2)")),
    bad(18, OPERATIONS, Body("z=scale(a,by=@q,by=q)")),
];
