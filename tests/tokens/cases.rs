//! Written cases: a text, the length of the lent table, and what is to come of
//! them by the rules. They lie on either side of every limit.

use Text::{Once, Pieces};

pub enum Text {
    /// The bytes themselves.
    Once(&'static [u8]),
    /// Pieces one after another, each as many times as it says.
    Pieces(&'static [(&'static [u8], usize)]),
}

pub struct Case {
    text: Text,
    pub table_words: usize,
    /// Code, text, position, detail.
    pub answer: [u32; 4],
    /// The first records of the table: kind, start, end, line.
    pub records: &'static [[u32; 4]],
}

impl Case {
    pub fn text(&self) -> Vec<u8> {
        match self.text {
            Once(bytes) => bytes.to_vec(),
            Pieces(pieces) => pieces
                .iter()
                .flat_map(|(bytes, times)| bytes.repeat(*times))
                .collect(),
        }
    }
}

/// A text that is accepted, with its number of tokens.
const fn good(text: Text, count: u32, records: &'static [[u32; 4]]) -> Case {
    Case {
        text,
        table_words: 16_384,
        answer: [0, 0, 0, count],
        records,
    }
}

/// A text that is refused, with the code and the place.
const fn bad(text: Text, code: u32, position: u32) -> Case {
    Case {
        text,
        table_words: 16_384,
        answer: [code, 1, position, 0],
        records: &[],
    }
}

/// A call that is refused for its table.
const fn short(table_words: usize, text: Text) -> Case {
    Case {
        text,
        table_words,
        answer: [1, 0, 0, 0],
        records: &[],
    }
}

/// The same case with another table.
const fn lent(table_words: usize, case: Case) -> Case {
    Case {
        table_words,
        ..case
    }
}

#[rustfmt::skip]
pub const CASES: &[Case] = &[
    // White space and comments.
    good(Once(b""), 0, &[]),
    good(Once(b" \t\n\x0b\x0c\r"), 0, &[]),
    good(Once(b"# no more than a comment"), 0, &[]),
    good(Once(b"#\x00\xff'\n"), 0, &[]),
    good(Once(b"#a\rb"), 0, &[]),
    good(Once(b"a#b\nc"), 2, &[[1, 0, 1, 1], [1, 4, 5, 2]]),
    good(Once(b"1#2"), 1, &[[2, 0, 1, 1]]),
    // Lines: one more after each byte 10, in a comment or not, and after no other byte.
    good(Once(b"a b"), 2, &[[1, 0, 1, 1], [1, 2, 3, 1]]),
    good(Once(b"a\nb"), 2, &[[1, 0, 1, 1], [1, 2, 3, 2]]),
    good(Once(b"\na"), 1, &[[1, 1, 2, 2]]),
    good(Once(b"\n\n a \n\n b\n"), 2, &[[1, 3, 4, 3], [1, 8, 9, 5]]),
    good(Once(b"a\rb\x0bc\x0cd\te"), 5, &[[1, 0, 1, 1], [1, 2, 3, 1], [1, 4, 5, 1], [1, 6, 7, 1], [1, 8, 9, 1]]),
    good(Once(b"a\r\nb\n\rc"), 3, &[[1, 0, 1, 1], [1, 3, 4, 2], [1, 6, 7, 3]]),
    good(Once(b"# c\n# d\r\n\n#\na"), 1, &[[1, 12, 13, 5]]),
    good(Once(b"a # b\n c# d\n\te"), 3, &[[1, 0, 1, 1], [1, 7, 8, 2], [1, 13, 14, 3]]),
    bad(Once(b"a # '\n' # \n"), 5, 6),
    good(Pieces(&[(b"a\n", 4_096)]), 4_096, &[[1, 0, 1, 1], [1, 2, 3, 2], [1, 4, 5, 3]]),
    good(Pieces(&[(b"\n", 16_383), (b"a", 1)]), 1, &[[1, 16_383, 16_384, 16_384]]),
    good(Pieces(&[(b"#\n", 8_191), (b";;", 1)]), 2, &[[8, 16_382, 16_383, 8_192], [8, 16_383, 16_384, 8_192]]),
    // Words.
    good(Once(b"graph fragment tensor extent scalar"), 5, &[[6, 0, 5, 1], [6, 6, 14, 1], [6, 15, 21, 1], [6, 22, 28, 1], [6, 29, 35, 1]]),
    good(Once(b"logical string shape_of length_of range_of"), 5, &[[6, 0, 7, 1], [6, 8, 14, 1], [6, 15, 23, 1], [6, 24, 33, 1], [6, 34, 42, 1]]),
    good(Once(b"for in if else version"), 5, &[[6, 0, 3, 1], [6, 4, 6, 1], [6, 7, 9, 1], [6, 10, 14, 1], [6, 15, 22, 1]]),
    good(Once(b"true false"), 2, &[[5, 0, 4, 1], [5, 5, 10, 1]]),
    good(Once(b"in_ _in iff versions True"), 5, &[[1, 0, 3, 1], [1, 4, 7, 1], [1, 8, 11, 1], [1, 12, 20, 1], [1, 21, 25, 1]]),
    good(Once(b"_ a1 Z_9"), 3, &[[1, 0, 1, 1], [1, 2, 4, 1], [1, 5, 8, 1]]),
    // Operators and syntactic characters; the longest match holds.
    good(
        Once(b"+ - * / ^ < <= > >= == != && || !"),
        14,
        &[
            [7, 0, 1, 1], [7, 2, 3, 1], [7, 4, 5, 1], [7, 6, 7, 1], [7, 8, 9, 1], [7, 10, 11, 1], [7, 12, 14, 1],
            [7, 15, 16, 1], [7, 17, 19, 1], [7, 20, 22, 1], [7, 23, 25, 1], [7, 26, 28, 1], [7, 29, 31, 1], [7, 32, 33, 1],
        ],
    ),
    good(
        Once(b"()[]{}:=,;->"),
        11,
        &[
            [8, 0, 1, 1], [8, 1, 2, 1], [8, 2, 3, 1], [8, 3, 4, 1], [8, 4, 5, 1], [8, 5, 6, 1],
            [8, 6, 7, 1], [8, 7, 8, 1], [8, 8, 9, 1], [8, 9, 10, 1], [8, 10, 12, 1],
        ],
    ),
    good(Once(b"a<=b"), 3, &[[1, 0, 1, 1], [7, 1, 3, 1], [1, 3, 4, 1]]),
    good(Once(b"==="), 2, &[[7, 0, 2, 1], [8, 2, 3, 1]]),
    good(Once(b"!=="), 2, &[[7, 0, 2, 1], [8, 2, 3, 1]]),
    good(Once(b"-->"), 2, &[[7, 0, 1, 1], [8, 1, 3, 1]]),
    good(Once(b"<->"), 2, &[[7, 0, 1, 1], [8, 1, 3, 1]]),
    good(Once(b"=>"), 2, &[[8, 0, 1, 1], [7, 1, 2, 1]]),
    good(Once(b"- >"), 2, &[[7, 0, 1, 1], [7, 2, 3, 1]]),
    // Numbers.
    good(Once(b"1 1.0 1e2 1E+2 1.5e-3"), 5, &[[2, 0, 1, 1], [3, 2, 5, 1], [3, 6, 9, 1], [3, 10, 14, 1], [3, 15, 21, 1]]),
    good(Once(b"000 0.0500e3"), 2, &[[2, 0, 3, 1], [3, 4, 12, 1]]),
    good(Once(b"-1+2"), 4, &[[7, 0, 1, 1], [2, 1, 2, 1], [7, 2, 3, 1], [2, 3, 4, 1]]),
    // A sign is a token of its own; the number behind it has its own place and sizes.
    good(Once(b"-1"), 2, &[[7, 0, 1, 1], [2, 1, 2, 1]]),
    good(Once(b"- 1"), 2, &[[7, 0, 1, 1], [2, 2, 3, 1]]),
    good(Once(b"-#c\n1"), 2, &[[7, 0, 1, 1], [2, 4, 5, 2]]),
    good(Once(b"--0"), 3, &[[7, 0, 1, 1], [7, 1, 2, 1], [2, 2, 3, 1]]),
    good(Once(b"-1.5e-3"), 2, &[[7, 0, 1, 1], [3, 1, 7, 1]]),
    good(Once(b"1e-1-1"), 3, &[[3, 0, 4, 1], [7, 4, 5, 1], [2, 5, 6, 1]]),
    good(Once(b"->1"), 2, &[[8, 0, 2, 1], [2, 2, 3, 1]]),
    good(Once(b"=-1"), 3, &[[8, 0, 1, 1], [7, 1, 2, 1], [2, 2, 3, 1]]),
    good(Once(b"[-1,(-2"), 7, &[[8, 0, 1, 1], [7, 1, 2, 1], [2, 2, 3, 1], [8, 3, 4, 1], [8, 4, 5, 1], [7, 5, 6, 1], [2, 6, 7, 1]]),
    good(Pieces(&[(b"-", 1), (b"0", 64)]), 2, &[[7, 0, 1, 1], [2, 1, 65, 1]]),
    good(Pieces(&[(b"-", 1), (b"9", 18)]), 2, &[[7, 0, 1, 1], [2, 1, 19, 1]]),
    bad(Once(b"-1."), 4, 1),
    bad(Once(b"- 1e"), 4, 2),
    bad(Pieces(&[(b"-", 1), (b"0", 65)]), 6, 1),
    bad(Pieces(&[(b"-", 1), (b"9", 19)]), 7, 1),
    bad(Once(b"-1e1000"), 7, 1),
    good(Once(b"1-e"), 3, &[[2, 0, 1, 1], [7, 1, 2, 1], [1, 2, 3, 1]]),
    // Strings.
    good(Once(b"'' \"\""), 2, &[[4, 0, 2, 1], [4, 3, 5, 1]]),
    good(Once(b"'a\"b'\"c'd\""), 2, &[[4, 0, 5, 1], [4, 5, 10, 1]]),
    good(Once(b"'#'"), 1, &[[4, 0, 3, 1]]),
    good(Once(b"'\\'"), 1, &[[4, 0, 3, 1]]),
    good(Once(b"' ~'"), 1, &[[4, 0, 4, 1]]),
    // A piece of a document.
    good(
        Once(b"px=external(shape=[01,9]);"),
        13,
        &[
            [1, 0, 2, 1], [8, 2, 3, 1], [1, 3, 11, 1], [8, 11, 12, 1], [1, 12, 17, 1], [8, 17, 18, 1], [8, 18, 19, 1],
            [2, 19, 21, 1], [8, 21, 22, 1], [2, 22, 23, 1], [8, 23, 24, 1], [8, 24, 25, 1], [8, 25, 26, 1],
        ],
    ),
    // 1: the table is too short.
    short(0, Once(b"")),
    short(12_288, Once(b"a")),
    short(16_383, Once(b"a")),
    short(16_383, Once(b"@")),
    short(16_383, Pieces(&[(b" ", 16_385)])),
    lent(16_384, good(Once(b"a"), 1, &[[1, 0, 1, 1]])),
    lent(16_400, good(Once(b"a"), 1, &[[1, 0, 1, 1]])),
    lent(16_400, bad(Once(b"a @"), 3, 2)),
    // 2: the text is too long.
    good(Pieces(&[(b" ", 16_384)]), 0, &[]),
    good(Pieces(&[(b"#", 16_384)]), 0, &[]),
    good(Pieces(&[(b"\n", 16_382), (b"ab", 1)]), 1, &[[1, 16_382, 16_384, 16383]]),
    bad(Pieces(&[(b" ", 16_385)]), 2, 16_384),
    bad(Pieces(&[(b"@", 16_385)]), 2, 16_384),
    lent(16_400, bad(Pieces(&[(b";", 20_000)]), 2, 16_384)),
    // 3: a byte begins no token.
    bad(Once(b"."), 3, 0),
    bad(Once(b"a .5"), 3, 2),
    bad(Once(b"a & b"), 3, 2),
    bad(Once(b"&&&"), 3, 2),
    bad(Once(b"|"), 3, 0),
    bad(Once(b"a||| b"), 3, 3),
    bad(Once(b"&|"), 3, 0),
    bad(Once(b"\x00"), 3, 0),
    bad(Once(b"\x08"), 3, 0),
    bad(Once(b"\x0e"), 3, 0),
    bad(Once(b"\x1f"), 3, 0),
    bad(Once(b"a\x7f"), 3, 1),
    bad(Once(b"1\x80"), 3, 1),
    bad(Once(b"\xff"), 3, 0),
    bad(Once(b"\\"), 3, 0),
    bad(Once(b"$ % ? @ ` ~"), 3, 0),
    bad(Once(b"'a'."), 3, 3),
    // 4: a number is misspelt.
    bad(Once(b"1."), 4, 0),
    bad(Once(b"1e"), 4, 0),
    bad(Once(b"1e+"), 4, 0),
    bad(Once(b"1.5e-"), 4, 0),
    bad(Once(b"2.e3"), 4, 0),
    bad(Once(b"1..2"), 4, 0),
    bad(Once(b"1.2.3"), 4, 0),
    bad(Once(b"1e5e5"), 4, 0),
    bad(Once(b"1e5.0"), 4, 0),
    bad(Once(b"1_"), 4, 0),
    bad(Once(b"a 07b"), 4, 2),
    bad(Once(b"1. @"), 4, 0),
    bad(Once(b"1e1000x"), 4, 0),
    bad(Pieces(&[(b"0", 65), (b"x", 1)]), 4, 0),
    // 5: a string is not closed, or holds a byte outside 32 to 126.
    bad(Once(b"'ab"), 5, 0),
    bad(Once(b"a 'b"), 5, 2),
    bad(Once(b"\"a'"), 5, 0),
    bad(Once(b"'"), 5, 0),
    bad(Once(b"'a\nb'"), 5, 0),
    bad(Once(b"\"\t\""), 5, 0),
    bad(Once(b"'\x1f'"), 5, 0),
    bad(Once(b"'\x7f'"), 5, 0),
    bad(Once(b"'\x80'"), 5, 0),
    bad(Pieces(&[(b"'", 1), (b"a", 200)]), 5, 0),
    bad(Pieces(&[(b"'", 1), (b"a", 200), (b"\x00'", 1)]), 5, 0),
    // 6: a name, string or number is too long.
    good(Pieces(&[(b"a", 64)]), 1, &[[1, 0, 64, 1]]),
    bad(Pieces(&[(b"a", 65)]), 6, 0),
    bad(Pieces(&[(b"; a", 1), (b"9", 64)]), 6, 2),
    good(Pieces(&[(b"'", 1), (b"a", 128), (b"'", 1)]), 1, &[[4, 0, 130, 1]]),
    bad(Pieces(&[(b"'", 1), (b"a", 129), (b"'", 1)]), 6, 0),
    good(Pieces(&[(b"\"", 1), (b"'", 128), (b"\"", 1)]), 1, &[[4, 0, 130, 1]]),
    bad(Pieces(&[(b" \"", 1), (b"'", 129), (b"\"", 1)]), 6, 1),
    good(Pieces(&[(b"0", 64)]), 1, &[[2, 0, 64, 1]]),
    bad(Pieces(&[(b"0", 65)]), 6, 0),
    good(Pieces(&[(b"0.", 1), (b"0", 58), (b"1e-9", 1)]), 1, &[[3, 0, 64, 1]]),
    bad(Pieces(&[(b"0.", 1), (b"0", 59), (b"1e-9", 1)]), 6, 0),
    bad(Pieces(&[(b"9", 65)]), 6, 0),
    // 7: a number is out of range.
    bad(Pieces(&[(b"9", 64)]), 7, 0),
    good(Pieces(&[(b"9", 18)]), 1, &[[2, 0, 18, 1]]),
    bad(Pieces(&[(b"9", 19)]), 7, 0),
    good(Pieces(&[(b"1", 1), (b"0", 18)]), 1, &[[2, 0, 19, 1]]),
    good(Pieces(&[(b"1", 1), (b"0", 16), (b"1", 1)]), 1, &[[2, 0, 18, 1]]),
    bad(Pieces(&[(b"1", 1), (b"0", 17), (b"1", 1)]), 7, 0),
    good(Pieces(&[(b"0", 9), (b".", 1), (b"0", 9), (b"9", 18), (b"0", 9)]), 1, &[[3, 0, 46, 1]]),
    bad(Pieces(&[(b"0", 9), (b".", 1), (b"0", 9), (b"9", 19), (b"0", 9)]), 7, 0),
    good(Once(b"1e999"), 1, &[[3, 0, 5, 1]]),
    bad(Once(b"1e1000"), 7, 0),
    good(Once(b"1e-999"), 1, &[[3, 0, 6, 1]]),
    bad(Once(b"a 1e-1000"), 7, 2),
    good(Once(b"10e998"), 1, &[[3, 0, 6, 1]]),
    bad(Once(b"10e999"), 7, 0),
    good(Once(b"0.1e1000"), 1, &[[3, 0, 8, 1]]),
    bad(Once(b"0.1e1001"), 7, 0),
    good(Once(b"1.50e-998"), 1, &[[3, 0, 9, 1]]),
    bad(Once(b"1.50e-999"), 7, 0),
    good(Once(b"100e-1001"), 1, &[[3, 0, 9, 1]]),
    bad(Once(b"100e-1002"), 7, 0),
    good(Once(b"1e0000000000999"), 1, &[[3, 0, 15, 1]]),
    good(Once(b"0e9999 0.0E-9999"), 2, &[[3, 0, 6, 1], [3, 7, 16, 1]]),
    good(Once(b"0e000000009999"), 1, &[[3, 0, 14, 1]]),
    bad(Once(b"0e10000"), 7, 0),
    bad(Once(b"0.0e-10000"), 7, 0),
    bad(Once(b"0e4294967296"), 7, 0),
    bad(Once(b"0e18446744073709551616"), 7, 0),
    // 8: there are too many tokens; a fault of the first beyond comes before it.
    good(Pieces(&[(b"a ", 4_096)]), 4_096, &[[1, 0, 1, 1], [1, 2, 3, 1], [1, 4, 5, 1]]),
    bad(Pieces(&[(b"a ", 4_096), (b"a", 1)]), 8, 8_192),
    good(Pieces(&[(b";", 4_096)]), 4_096, &[[8, 0, 1, 1], [8, 1, 2, 1]]),
    good(Pieces(&[(b";", 4_096), (b" # end", 1)]), 4_096, &[[8, 0, 1, 1], [8, 1, 2, 1]]),
    bad(Pieces(&[(b";", 4_097)]), 8, 4_096),
    lent(17_000, bad(Pieces(&[(b";", 4_100)]), 8, 4_096)),
    bad(Pieces(&[(b";", 4_096), (b";@", 1)]), 8, 4_096),
    bad(Pieces(&[(b";", 4_096), (b" @", 1)]), 3, 4_097),
    bad(Pieces(&[(b";", 4_096), (b"1x", 1)]), 4, 4_096),
    bad(Pieces(&[(b";", 4_096), (b"'", 1)]), 5, 4_096),
    bad(Pieces(&[(b";", 4_096), (b"a", 65)]), 6, 4_096),
    bad(Pieces(&[(b";", 4_096), (b"1e1000", 1)]), 7, 4_096),
    // The fault with the smallest position is given.
    bad(Once(b"@ 1. 'a"), 3, 0),
    bad(Once(b"'a\n' @"), 5, 0),
    bad(Pieces(&[(b"1e1000 @ ", 1), (b"a", 65)]), 7, 0),
];
