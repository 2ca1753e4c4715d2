//! Written cases for `compare`: two names, and what is to be said of them.

/// Two names, and whether they are the same and after how many pairs.
pub type Case = (&'static [u8], &'static [u8], [u32; 2]);

pub const CASES: &[Case] = &[
    // No byte.
    (b"", b"", [1, 0]),
    (b"", b"a", [0, 0]),
    (b"", b"\0", [0, 0]),
    // One byte: it is the last one.
    (b"a", b"a", [1, 1]),
    (b"a", b"b", [0, 1]),
    (b"a", b"A", [0, 1]),
    (b"\0", b"\0", [1, 1]),
    (b"\0", b"\x80", [0, 1]),
    (b"\x7f", b"\xff", [0, 1]),
    // Two bytes.
    (b"ab", b"ab", [1, 2]),
    (b"ab", b"ac", [0, 1]),
    (b"ab", b"cb", [0, 2]),
    (b"ab", b"cd", [0, 1]),
    (b"ab", b"ba", [0, 1]),
    // Another length, whatever the bytes are.
    (b"scale", b"scales", [0, 0]),
    (b"scale", b"xscale", [0, 0]),
    (b"scale", b"scale\0", [0, 0]),
    (b"scale", b"s", [0, 0]),
    (b"input", b"external", [0, 0]),
    // Another last byte, whatever the others are.
    (b"star_1", b"star_2", [0, 1]),
    (b"tensor", b"extent", [0, 1]),
    (b"tensor", b"sensed", [0, 1]),
    (b"1.0", b"1.1", [0, 1]),
    // The same last byte, and the first difference before it.
    (b"1.0", b"2.0", [0, 2]),
    (b"1.0", b"100", [0, 3]),
    (b"scale", b"stale", [0, 3]),
    (b"string", b"strong", [0, 5]),
    (b"external", b"internal", [0, 2]),
    (b"external", b"externol", [0, 8]),
    (b"star_1_x", b"star_2_x", [0, 7]),
    (b"length_of", b"length_if", [0, 9]),
    (b"shape_of", b"range_of", [0, 2]),
    // A second difference behind the first.
    (b"abcdef", b"axcxef", [0, 3]),
    (b"abcdef", b"axcxex", [0, 1]),
    // In the ninth byte, and in the last but one.
    (b"position_x", b"position-x", [0, 10]),
    (b"epoch_correction", b"epoch-correction", [0, 7]),
    (b"epoch_correction", b"epoch_correctinn", [0, 16]),
    // The same.
    (b"external", b"external", [1, 8]),
    (b"epoch_correction", b"epoch_correction", [1, 16]),
    (b"\xff\0\xff\0\xff", b"\xff\0\xff\0\xff", [1, 5]),
];
