//! Documents with two faults. The first in the text is given, whichever rule is
//! judged first; of two at one place, the one with the smaller code.
//!
//! In a text `@` marks the fault that is given, and `!` the other. `~wrong|right~`
//! is what makes the first fault, and what stands there when it is mended; then
//! the other one is given. In a piece that is repeated `%` stands for the number of
//! the repetition, from 0. A parameter that is not bound (19) is always at index 1.

use super::cases::ARRAY_EXTERNAL;
use crate::written::Text::{self, Body, Once, Pieces};
use crate::written::{BODY, OPERATIONS};

/// A document with two faults under a list.
pub struct Order {
    pub list: Text,
    pub first: u32,
    pub second: u32,
    marked: String,
}

impl Order {
    /// The document with both faults, and its answer.
    pub fn with_both(&self) -> (Vec<u8>, [u32; 4]) {
        self.chosen(0, '@', self.first)
    }

    /// The document with its first fault mended, and its answer.
    pub fn mended(&self) -> (Vec<u8>, [u32; 4]) {
        self.chosen(1, '!', self.second)
    }

    /// The document with one alternative everywhere, and its answer.
    fn chosen(&self, alternative: usize, mark: char, code: u32) -> (Vec<u8>, [u32; 4]) {
        let parts = self.marked.split('~').enumerate();
        let text: String = parts
            .map(|(place, part)| match place % 2 {
                0 => part,
                _ => part.split('|').nth(alternative).unwrap_or_default(),
            })
            .collect();
        let others = |text: &str| text.replace(['@', '!'], "");
        let (before, _) = text.split_once(mark).expect("the fault is marked");
        let position = others(before).len() as u32;
        let detail = u32::from(code == 19);
        (others(&text).into_bytes(), [code, 2, position, detail])
    }
}

/// Whether a fault of one code can stand before one of another code: the version
/// is the first of all, and only in a header are names repeated, or outputs listed.
pub fn can_be_had([first, second]: [u32; 2]) -> bool {
    match second {
        11 => false,
        13 | 24 => !(15..=22).contains(&first),
        _ => true,
    }
}

/// Codes of the rules of a document.
pub const CODES: [u32; 13] = [11, 12, 13, 15, 16, 17, 18, 19, 20, 21, 22, 23, 24];

/// All documents, which have two codes each.
pub fn orders() -> Vec<Order> {
    let mut orders = Vec::new();
    let mut add = |list, first, second, marked: String| {
        if first != second {
            orders.push(Order {
                list,
                first,
                second,
                marked,
            });
        }
    };
    for (second, late) in LATE {
        let late = late.marked();
        for (first, early) in EARLY {
            let early = early.marked();
            add(
                OPERATIONS,
                *first,
                *second,
                format!("{BODY}{early}{late}}}"),
            );
        }
        for (first, head) in HEADS {
            add(OPERATIONS, *first, *second, head.marked() + &late + "}");
        }
    }
    for (first, left) in LEFTS {
        for (second, right) in RIGHTS {
            // An operation that is not declared has no results to match.
            if [*first, *second] != [20, 15] {
                let left = left.marked();
                let call = format!("{TWO_INPUTS}{left}={right}i=external(shape=[1])}}");
                add(OPERATIONS, *first, *second, call);
            }
        }
    }
    for (first, second, document) in WRITTEN {
        add(OPERATIONS, *first, *second, document.marked());
    }
    for (first, second, document) in WITH_ARRAYS {
        add(ARRAY_EXTERNAL, *first, *second, document.marked());
    }
    orders
}

type Part = (u32, Text);

/// Calls with the first fault. Mended they assign two identifiers beside `a`.
#[rustfmt::skip]
const EARLY: &[Part] = &[
    (12, Pieces(&[("~[", 1), ("c%,", 1_023), ("@c]=items([])|b,c=split(a,parts=2)~", 1)])),
    (15, Once("b,c=@~f|split~(a,parts=2)")),
    (16, Once("b=scale(a,@~2|by=2~)c=scale(a)")),
    (17, Once("b=scale(a,@~to|by~=2)c=scale(a)")),
    (18, Once("b=scale(a,by=@~true|2~)c=scale(a)")),
    (19, Once("b,c=@split(a~|,parts=2~)")),
    (20, Once("@~[b]|b~=scale(a)c=scale(a)")),
    (21, Once("b=scale(a)@~b|c~=scale(a)")),
    (22, Once("b=scale(@~q|a~)c=scale(a)")),
    (23, Once("@b=~external(shape=[1])|scale(a)~c=scale(a)")),
];

/// Calls with the second fault, after three identifiers that are assigned.
#[rustfmt::skip]
const LATE: &[Part] = &[
    (12, Pieces(&[("z=scale(a)[", 1), ("y%,", 1_020), ("!y]=items([])", 1)])),
    (15, Once("z=!f(a)")),
    (16, Once("z=scale(a,!2)")),
    (17, Once("z=scale(a,!to=2)")),
    (18, Once("z=scale(a,by=!true)")),
    (19, Once("z,y=!split(a)")),
    (20, Once("![z]=scale(a)")),
    (21, Once("z=scale(a)!z=scale(a)")),
    (22, Once("z=scale(!q)")),
    (23, Once("!z=external(shape=[1])")),
];

/// Headers with the first fault, and calls up to those of `LATE`.
#[rustfmt::skip]
const HEADS: &[Part] = &[
    (11, Once("version @~2.0|1.0~ graph g(a)->(z){a=external(shape=[1])b,c=split(a,parts=2)")),
    (12, Pieces(&[("version 1.0 graph g(a)->(z~", 1), (",o%", 31), (",@p|~){a=external(shape=[1])[p", 1), (",o%", 31), ("]=items([a])", 1)])),
    (13, Once("version 1.0 graph g(a)->(z~,@z|~){a=external(shape=[1])b,c=split(a,parts=2)")),
    (23, Once("version 1.0 graph g(a~,@i|~)->(z){a=external(shape=[1])b,c=split(a,parts=2)")),
    (24, Once("version 1.0 graph g(a)->(z~,@o|~){a=external(shape=[1])b,c=split(a,parts=2)")),
];

/// A graph whose second input is assigned at its end.
const TWO_INPUTS: &str = "version 1.0 graph g(a,i)->(z){a=external(shape=[1])z=scale(a)";

/// Left sides with the first fault of a call; the first one is that of call 385.
#[rustfmt::skip]
const LEFTS: &[Part] = &[
    (12, Pieces(&[("~b=scale(a)|~", 1), ("c%=scale(a)", 381), ("@y", 1)])),
    (20, Once("@~[y]|y~")),
    (21, Once("@~z|y~")),
    (23, Once("@~i|y~")),
];

/// Operations and arguments with the second fault of that call.
const RIGHTS: &[(u32, &str)] = &[
    (15, "!f(a)"),
    (16, "scale(a,!2)"),
    (17, "scale(a,!to=1)"),
    (18, "scale(a,by=!true)"),
    (19, "!label(a,at=1)"),
    (22, "scale(!q)"),
];

#[rustfmt::skip]
const WRITTEN: &[(u32, u32, Text)] = &[
    // Both in the header.
    (11, 12, Pieces(&[("version @~2.0|1.0~ graph g(a)->(z", 1), (",o%", 31), (",!p){a=external(shape=[1])[z,p", 1), (",o%", 31), ("]=items([a])}", 1)])),
    (11, 13, Once("version @~1|1.0~ graph g(a,!a)->(z){a=external(shape=[1])z=scale(a)}")),
    (11, 23, Once("version @~1|1.0~ graph g(!i)->(z){z=scale(1)}")),
    (11, 24, Once("version @~1|1.0~ graph g(a)->(!z){a=external(shape=[1])}")),
    (12, 13, Pieces(&[("version 1.0 graph g(a)->(z~", 1), (",o%", 31), (",@p|~,!z){a=external(shape=[1])[z,p", 1), (",o%", 31), ("]=items([a])}", 1)])),
    (13, 12, Pieces(&[("version 1.0 graph g(a)->(z~,@z|~", 1), (",o%", 31), (",!p){a=external(shape=[1])[z,p", 1), (",o%", 31), ("]=items([a])}", 1)])),
    (23, 12, Pieces(&[("version 1.0 graph g(a~,@i|~)->(z", 1), (",o%", 31), (",!p){a=external(shape=[1])[z,p", 1), (",o%", 31), ("]=items([a])}", 1)])),
    (12, 24, Pieces(&[("version 1.0 graph g(a)->(z~", 1), (",o%", 31), (",@p|~,!q){a=external(shape=[1])[z,p", 1), (",o%", 31), ("]=items([a])}", 1)])),
    (24, 12, Pieces(&[("version 1.0 graph g(a)->(z~,@q|~", 1), (",o%", 31), (",!p){a=external(shape=[1])[z,p", 1), (",o%", 31), ("]=items([a])}", 1)])),
    (13, 23, Once("version 1.0 graph g(a~,@a|~,!i)->(z){a=external(shape=[1])z=scale(a)}")),
    (23, 13, Once("version 1.0 graph g(a~,@i|~)->(z,!z){a=external(shape=[1])z=scale(a)}")),
    (13, 24, Once("version 1.0 graph g(a)->(z~,@z|~,!q){a=external(shape=[1])z=scale(a)}")),
    (24, 13, Once("version 1.0 graph g(a)->(z~,@q|~,!z){a=external(shape=[1])z=scale(a)}")),
    (23, 24, Once("version 1.0 graph g(a~,@i|~)->(z,!q){a=external(shape=[1])z=scale(a)}")),
    // Both on one left side.
    (12, 21, Pieces(&[("version 1.0 graph g(a)->(z){a=external(shape=[1])z=scale(a)~b=scale(a)|~", 1), ("c%=scale(a)", 381), ("@y,!z=split(a,parts=2)}", 1)])),
    (20, 21, Body("z=scale(a)@~b,|~!z=scale(a)")),
    (20, 23, Body("z=scale(a)@~b,|~!y=external(shape=[1])")),
    (21, 23, Once("version 1.0 graph g(a,i)->(z){a=external(shape=[1])z=scale(a)@~z|y~,!i=split(a,parts=2)}")),
    (23, 21, Once("version 1.0 graph g(a,i)->(z){a=external(shape=[1])z=scale(a)@~i|y~,!z=split(a,parts=2)i=external(shape=[1])}")),
    // An operation and an argument of one call.
    (15, 12, Pieces(&[("version 1.0 graph g(a)->(z){a=external(shape=[1])[]=items([a", 1), (",a", 1_022), ("])z=@~f|both~(a,!a)}", 1)])),
    (15, 22, Body("z=@~f|scale~(!q)")),
    (19, 12, Pieces(&[("version 1.0 graph g(a)->(z){a=external(shape=[1])[]=items([a", 1), (",a", 1_023), ("])b,z=@split(!a~|,parts=2~)}", 1)])),
    (19, 16, Body("b,z=@split(a~|,parts=2~,!2)")),
    (19, 17, Body("b,z=@split(a~|,parts=2~,!to=2)")),
    (19, 18, Body("z=@label(a~|,name='n'~,at=!1.5)")),
    (19, 22, Body("b,z=@split(!q~|,parts=2~)")),
    // A left side and the first use beyond the size.
    (20, 12, Pieces(&[("version 1.0 graph g(a)->(z){a=external(shape=[1])[]=items([a", 1), (",a", 1_023), ("])@~[z]|z~=scale(!a)}", 1)])),
    (21, 12, Pieces(&[("version 1.0 graph g(a)->(z){a=external(shape=[1])z=scale(1)[]=items([a", 1), (",a", 1_023), ("])@~z|y~=scale(!a)}", 1)])),
    // Two arguments of one call.
    (16, 17, Body("z=both(a,a,@~a,|~!to=1)")),
    (17, 16, Body("z=both(a,@~to|y~=1,!a)")),
    (16, 18, Body("z=scale(a,@~2,|~by=!true)")),
    (18, 16, Body("z=both(@~'s'|a~,y=1,!2)")),
    (16, 22, Body("z=both(x=a,@~1,|~y=!q)")),
    (22, 16, Body("z=both(@~q|a~,a,!1)")),
    (17, 18, Body("z=scale(a,@~to=1,|~by=!true)")),
    (18, 17, Body("z=scale(@~'s'|a~,!to=1)")),
    (17, 22, Body("z=both(@~to=1,|~x=!q)")),
    (22, 17, Body("z=both(@~q|a~,!to=1)")),
    (18, 22, Body("z=both(@~'s'|a~,!q)")),
    (22, 18, Body("z=both(@~q|a~,!'s')")),
    // One of them the first use beyond the size.
    (12, 16, Pieces(&[("version 1.0 graph g(a)->(z){a=external(shape=[1])[]=items([a", 1), (",a", 1_023), ("])z=both(@~a|1~,1,!2)}", 1)])),
    (16, 12, Pieces(&[("version 1.0 graph g(a)->(z){a=external(shape=[1])[]=items([a", 1), (",a", 1_023), ("])z=both(x=1,@~2,|~y=!a)}", 1)])),
    (12, 17, Pieces(&[("version 1.0 graph g(a)->(z){a=external(shape=[1])[]=items([a", 1), (",a", 1_023), ("])z=both(@~a|1~,!to=1)}", 1)])),
    (17, 12, Pieces(&[("version 1.0 graph g(a)->(z){a=external(shape=[1])[]=items([a", 1), (",a", 1_023), ("])z=both(@~to=1,|~x=!a)}", 1)])),
    (12, 18, Pieces(&[("version 1.0 graph g(a)->(z){a=external(shape=[1])[]=items([a", 1), (",a", 1_023), ("])z=both(@~a|1~,!'s')}", 1)])),
    (18, 12, Pieces(&[("version 1.0 graph g(a)->(z){a=external(shape=[1])[]=items([a", 1), (",a", 1_023), ("])z=both(@~'s'|1~,!a)}", 1)])),
    (12, 22, Pieces(&[("version 1.0 graph g(a)->(z){a=external(shape=[1])~[]=items([a", 1), (",a", 1_023), ("])|~z=both(@~a|1~,!q)}", 1)])),
    (22, 12, Pieces(&[("version 1.0 graph g(a)->(z){a=external(shape=[1])[]=items([a", 1), (",a", 1_022), ("])z=both(@~q|a~,!a)}", 1)])),
    // At one place in the header.
    (12, 13, Pieces(&[("version 1.0 graph g(a)->(z~", 1), (",o%", 31), ("|~,@!z){a=external(shape=[1])[z", 1), (",o%", 31), ("]=items([a])}", 1)])),
    (12, 24, Pieces(&[("version 1.0 graph g(a)->(z~", 1), (",o%", 31), ("|~,@!q){a=external(shape=[1])[z", 1), (",o%", 31), ("]=items([a])}", 1)])),
    // At one place of a left side.
    (12, 20, Pieces(&[("version 1.0 graph g(a)->(z){a=external(shape=[1])z=scale(a)~b=scale(a)|~", 1), ("c%=scale(a)", 381), ("@![y]=scale(a)}", 1)])),
    (12, 21, Pieces(&[("version 1.0 graph g(a)->(z){a=external(shape=[1])z=scale(a)~b=scale(a)|~", 1), ("c%=scale(a)", 381), ("@!z=scale(a)}", 1)])),
    (12, 23, Pieces(&[("version 1.0 graph g(a)->(z){a=external(shape=[1])z=scale(a)~b=scale(a)|~", 1), ("c%=scale(a)", 381), ("@!y=external(shape=[1])}", 1)])),
    (20, 21, Body("z=scale(a)@!z~,b|~=scale(a)")),
    (20, 23, Body("z=scale(a)@!y~,b|~=external(shape=[1])")),
    (21, 23, Once("version 1.0 graph g(a)->(z){~a=external(shape=[1])|~z=scale(1)@!a=scale(z)}")),
    // At one argument.
    (12, 16, Pieces(&[("version 1.0 graph g(a)->(z){a=external(shape=[1])~[]=items([a", 1), (",a", 1_023), ("])|~z=both(1,1,@!a)}", 1)])),
    (12, 18, Pieces(&[("version 1.0 graph g(a)->(z){a=external(shape=[1])~[]=items([a", 1), (",a", 1_023), ("])|~z=scale(1,by=@!a)}", 1)])),
    (12, 22, Pieces(&[("version 1.0 graph g(a)->(z){a=external(shape=[1])~[]=items([a", 1), (",a", 1_023), ("])|~z=scale(@!q)}", 1)])),
    (16, 22, Body("z=both(a,~a,|~@!q)")),
    (18, 22, Body("z=~scale(a,by=|both(a,y=~@!q)")),
];

/// More inputs than may be.
#[rustfmt::skip]
const WITH_ARRAYS: &[(u32, u32, Text)] = &[
    (12, 23, Pieces(&[("version 1.0 graph g(a~", 1), (",i%", 31), (",@p|~,!j)->(z){[a,p", 1), (",i%", 31), ("]=external(shape=[])z=scale(a)}", 1)])),
    (12, 23, Pieces(&[("version 1.0 graph g(a~", 1), (",i%", 31), ("|~,@!j)->(z){[a", 1), (",i%", 31), ("]=external(shape=[])z=scale(a)}", 1)])),
];
