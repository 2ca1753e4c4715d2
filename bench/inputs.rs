//! The texts that are timed.

#[path = "collisions.rs"]
mod collisions;

/// An operation list and a document that is accepted under it.
pub struct Pair {
    pub list: Vec<u8>,
    pub document: Vec<u8>,
}

/// A pair that is timed, and the code that `canon` answers for it.
pub struct Input {
    pub name: &'static str,
    pub pair: Pair,
    pub code: u32,
}

/// The texts for `tokens`, with their names.
pub fn texts() -> Vec<(&'static str, Vec<u8>)> {
    let document: &[u8] = include_bytes!("guide_star.nnef");
    vec![
        ("guide star graph", document.to_vec()),
        ("one line", b"position = divide(moved, norm);\n".to_vec()),
        ("comments", lines(180, comment)),
        ("short tokens", lines(310, short_call)),
        ("long names", lines(100, long_names)),
        ("numbers", lines(440, numbers)),
        ("strings", lines(220, strings)),
    ]
}

/// The pairs of names for `compare`, with names for them.
pub fn names() -> Vec<(&'static str, [Vec<u8>; 2])> {
    let pair = |what, a: &str, b: &str| (what, [a.as_bytes().to_vec(), b.as_bytes().to_vec()]);
    let long = "n".repeat(64);
    let late = format!("{}mn", "n".repeat(62));
    vec![
        pair("unequal lengths", "match_window", "match_windows"),
        pair("unequal last bytes", "match_window", "match_winner"),
        pair("unequal first bytes", "match_window", "patch_window"),
        pair("equal, short", "norm", "norm"),
        pair("equal, usual", "match_window", "match_window"),
        pair("equal, longest", &long, &long),
        pair("unequal last bytes but one", &long, &late),
    ]
}

/// The pairs for `check`, `canon` and `order`. All but the first two come near a limit:
/// 16,384 bytes or 4,096 tokens of a text, or 384 calls.
pub fn inputs() -> Vec<Input> {
    let input = |name, pair| Input {
        name,
        pair,
        code: 0,
    };
    vec![
        input("the rules' own example", own_example()),
        input("typical net, 122 calls", typical_net()),
        Input {
            code: 25,
            ..input("384 calls, 80 operations", many_calls())
        },
        input("384 calls, canonical text fits", short_calls(384)),
        input("960 assigned, 914 used", many_identifiers(24, star)),
        input("64-byte names, named backwards", long_named()),
        input("eightfold arrays", deep_arrays()),
        input(
            "one array of 2000 extents",
            one_array("extent", 2000, extent),
        ),
        input(
            "240 numbers of 64 bytes",
            one_array("scalar", 240, long_number),
        ),
        input("1900 short reals", one_array("scalar", 1900, short_real)),
        input(
            "1300 negative extents",
            one_array("extent", 1300, negative_extent),
        ),
        input(
            "1300 negative reals",
            one_array("scalar", 1300, negative_real),
        ),
        input("comments and blanks", comments_and_blanks()),
        input("31 defaults a call", many_defaults()),
        input("28 headers of 32 parameters", many_parameters()),
    ]
}

/// Pairs whose document grows from about 2 to about 16 KB, of two sorts.
pub fn growth() -> [(&'static str, [Input; 4]); 2] {
    let input = |name, pair| Input {
        name,
        pair,
        code: 0,
    };
    let identifiers = [3, 6, 12, 24].map(|count| many_identifiers(count, star));
    let calls = [48, 96, 192, 384].map(short_calls);
    [("identifiers", identifiers), ("calls", calls)]
        .map(|(name, pairs)| (name, pairs.map(|pair| input(name, pair))))
}

/// A pair whose names are made to collide in the library's index of names: 960
/// identifiers of the document are on one chain, and 864 parameters of the list.
pub fn colliding() -> Input {
    let names = collisions::names(960);
    let Pair { list, document } = many_identifiers(24, |place| names[place].clone());
    let operations = names[..27 * 32]
        .chunks(32)
        .enumerate()
        .map(|(place, names)| {
            let parameters = names.iter().map(|name| format!("{name}:tensor"));
            format!(
                "fragment turn_{place}({})->(y:tensor)\n",
                joined(parameters)
            )
        });
    let operations: String = operations.collect();
    Input {
        name: "names that collide",
        pair: Pair {
            list: [&list[..], operations.as_bytes()].concat(),
            document,
        },
        code: 0,
    }
}

/// So many lines in a row; the counts come near the limits of 16,384 bytes or
/// 4,096 tokens.
fn lines(count: usize, line: fn(usize) -> String) -> Vec<u8> {
    (0..count).map(line).collect::<String>().into_bytes()
}

fn comment(place: usize) -> String {
    format!(
        "# Star {place}: the position is that of the catalogue's epoch, without proper motion.\n"
    )
}

fn short_call(place: usize) -> String {
    let letter = |n: usize| (b'a' + (n % 26) as u8) as char;
    format!(
        "{}=f({},[{},{}]);\n",
        letter(place),
        letter(place + 7),
        place % 10,
        letter(place + 3)
    )
}

fn long_names(place: usize) -> String {
    format!(
        "corrected_position_of_candidate_star_in_the_match_window_{place} = \
         proper_motion_since_catalogue_epoch(catalogue_position_before_correction_{place});\n"
    )
}

fn numbers(place: usize) -> String {
    let fraction = place * 7919 % 100_000;
    let degrees = place % 360;
    let exponent = place % 12;
    format!(
        "{place}, 0.{fraction:05}, {degrees}.{exponent:03}e-{exponent}, {},\n",
        place * 104_729
    )
}

fn strings(place: usize) -> String {
    format!("'band {place}', \"constant\", 'guide star table of the northern sky',\n")
}

/// The example of the rules.
fn own_example() -> Pair {
    let list = "fragment external(shape: extent[]) -> (output: tensor) \
         fragment scale(x: tensor, by: scalar = 1) -> (y: tensor)";
    let document = "version 1.0 graph win(px) -> (out) \
         { px = external(shape=[01,9]); out = scale(px, by=0.50) }";
    Pair {
        list: list.into(),
        document: document.into(),
    }
}

/// A net of 24 blocks of five calls under a list of usual operations.
fn typical_net() -> Pair {
    let list: &[u8] = include_bytes!("typical_list.nnef");
    let head = "version 1.0\n\n# A net of residual blocks.\ngraph net(input) -> (output)\n{\n    \
         input = external(shape = [1, 3, 224, 224]);\n";
    let blocks: String = (0..24).map(block).collect();
    let end = "    output = softmax(pool24, axes = [1]);\n}\n";
    Pair {
        list: list.to_vec(),
        document: [head, &blocks, end].concat().into_bytes(),
    }
}

/// A convolution with its variables, and what comes after it.
fn block(place: usize) -> String {
    let number = place + 1;
    let channels = 16 << (place / 6);
    let before = match place {
        0 => "input".to_string(),
        _ => format!("pool{place}"),
    };
    let last = if place % 6 == 5 {
        format!(
            "max_pool(relu{number}, size = [1, 1, 2, 2], stride = [1, 1, 2, 2], border = 'ignore')"
        )
    } else {
        format!("add(relu{number}, {before})")
    };
    format!(
        "\n    # Block {number}.\n    \
         filter{number} = variable(shape = [{channels}, {channels}, 3, 3], label = 'block{number}/filter');\n    \
         bias{number} = variable(shape = [1, {channels}], label = 'block{number}/bias');\n    \
         conv{number} = conv({before}, filter{number}, bias{number}, \
         padding = [(1, 1), (1, 1)], stride = [1, 1], dilation = [1, 1]);\n    \
         relu{number} = relu(conv{number});\n    \
         pool{number} = {last};\n"
    )
}

/// 384 calls under 80 operations; the defaults make the canonical text too long.
fn many_calls() -> Pair {
    pair(
        lines(79, correction),
        "star_0",
        "star_383",
        lines(383, correction_call),
    )
}

fn correction(place: usize) -> String {
    format!(
        "fragment shift_{place}(catalogue_position: tensor, proper_motion: tensor = 0.0, \
         years: scalar = 8.{place}, border: string = 'constant', \
         window_size: extent[] = [1, {place}], exact: logical = false) -> (moved: tensor)\n"
    )
}

/// A call that uses what the call before assigns; every other one uses an
/// older one too, the rest name a parameter.
fn correction_call(place: usize) -> String {
    let operation = place * 7 % 79;
    let more = if place.is_multiple_of(2) {
        format!("star_{}", place / 2)
    } else {
        format!("years = {place}.5")
    };
    format!(
        "star_{} = shift_{operation}(star_{place}, {more});\n",
        place + 1
    )
}

/// So many calls, most of one short argument under 80 operations.
fn short_calls(count: usize) -> Pair {
    let last = format!("corrected_{}", count - 1);
    pair(
        lines(79, turn),
        "corrected_0",
        &last,
        lines(count - 1, turn_call),
    )
}

fn turn(place: usize) -> String {
    format!("fragment turn_{place}(x: tensor) -> (y: tensor)\n")
}

fn turn_call(place: usize) -> String {
    let operation = place * 7 % 79;
    format!(
        "corrected_{} = turn_{operation}(corrected_{place});\n",
        place + 1
    )
}

/// So many calls that assign 40 identifiers and use 38 each; with 24 there are
/// 960 and 914, for the last call assigns 39 and the first two use 39.
fn many_identifiers(count: usize, name: impl Fn(usize) -> String) -> Pair {
    let list = b"fragment match(stars: tensor[]) -> (matches: tensor[])\n".to_vec();
    let calls: String = (0..count)
        .map(|place| matches(place, count, &name))
        .collect();
    let (input, output) = (name(0), name(40 * count - 1));
    pair(list, &input, &output, calls.into_bytes())
}

/// A call that assigns the next identifiers and uses some of those before.
fn matches(place: usize, count: usize, name: impl Fn(usize) -> String) -> String {
    let before = 40 * place + 1;
    let end = (before + 40).min(40 * count);
    let uses = if place < 2 { 39 } else { 38 };
    let used = (0..uses).map(|n| name((place + n) * 389 % before));
    let assigned = (before..end).map(&name);
    format!("[{}] = match([{}]);\n", joined(assigned), joined(used))
}

fn star(place: usize) -> String {
    format!("star{place}")
}

/// 60 operations and 91 calls, with eight brackets open in every default, and in
/// two arguments of every call but the first.
fn deep_arrays() -> Pair {
    pair(
        lines(60, deep_operation),
        "star0",
        "star90",
        lines(90, deep_call),
    )
}

fn deep_operation(place: usize) -> String {
    let default = nested(&place.to_string());
    format!(
        "fragment fold_{place}(stars: tensor{0}, weights: scalar{0} = {default}) -> (y: tensor)\n",
        "[]".repeat(8)
    )
}

fn deep_call(place: usize) -> String {
    let stars = nested(&star(place));
    let weights = nested(&format!("0.{place}"));
    let operation = place % 60;
    format!(
        "{} = fold_{operation}({stars}, weights = {weights});\n",
        star(place + 1)
    )
}

/// An item in eight brackets.
fn nested(item: &str) -> String {
    format!("{}{item}{}", "[".repeat(8), "]".repeat(8))
}

/// Operations and calls with names of 64 bytes; a call names all parameters, the
/// last one first.
fn long_named() -> Pair {
    let last = long_name("star", 6);
    pair(
        lines(6, long_operation),
        &long_name("star", 0),
        &last,
        lines(6, long_call),
    )
}

/// A name of 64 bytes that differs from others at its end.
fn long_name(begin: &str, number: usize) -> String {
    format!("{begin:_<61}{number:03}")
}

fn long_operation(place: usize) -> String {
    let limits = (1..32).map(|n| format!("{}: scalar", long_name("limit", n)));
    format!(
        "fragment {}({}: tensor, {}) -> (y: tensor)\n",
        long_name("choose", place),
        long_name("limit", 0),
        joined(limits)
    )
}

fn long_call(place: usize) -> String {
    let limits = (1..32)
        .rev()
        .map(|n| format!("{} = {n}", long_name("limit", n)));
    format!(
        "{} = {}({}, {} = {});\n",
        long_name("star", place + 1),
        long_name("choose", place),
        joined(limits),
        long_name("limit", 0),
        long_name("star", place)
    )
}

/// A call whose argument is one array of so many numbers.
fn one_array(item: &str, count: usize, number: fn(usize) -> String) -> Pair {
    let list = format!("fragment weigh(x: tensor, by: {item}[]) -> (y: tensor)\n");
    let numbers = joined((0..count).map(number));
    let call = format!("star1 = weigh(star0, by = [{numbers}]);\n");
    pair(list.into_bytes(), "star0", "star1", call.into_bytes())
}

fn extent(place: usize) -> String {
    (place * 104_729 % 1_000_000).to_string()
}

/// A number of 64 bytes with 18 digits that count.
fn long_number(place: usize) -> String {
    let digits = 123_456_789_012_345_671 + 1_000 * place;
    format!("{:020}.{:010}{digits}{:010}e-{}", 0, 0, 0, 100 + place)
}

fn short_real(place: usize) -> String {
    format!("{}.{:02}", place % 10, place * 7 % 100)
}

fn negative_extent(place: usize) -> String {
    format!("-{}", extent(place))
}

fn negative_real(place: usize) -> String {
    format!("-{}", short_real(place))
}

/// Few calls among comments, blanks and empty lines.
fn comments_and_blanks() -> Pair {
    let calls = (0..20).map(|place| {
        let comments: String = (0..7).map(|n| comment(7 * place + n)).collect();
        format!(
            "{comments}\n\t{:20}star{}   =   scale( {:40} star{place} ,\n{:60}by = 0.5 )   ;\n\n",
            "",
            place + 1,
            "",
            ""
        )
    });
    let list = "# The only operation beside external.\n\
         fragment scale( x : tensor , by : scalar = 1 ) -> ( y : tensor )\n";
    let calls: String = calls.collect();
    pair(list.into(), "star0", "star20", calls.into_bytes())
}

/// 28 operations of 32 parameters, and calls that name all of them.
fn many_parameters() -> Pair {
    pair(
        lines(28, wide_operation),
        "star0",
        "star27",
        lines(27, wide_call),
    )
}

/// The types that the parameters take in turn.
const TYPES: [&str; 4] = ["tensor", "scalar", "extent", "logical"];

fn wide_operation(place: usize) -> String {
    let parameters = (0..32).map(|n| format!("limit{n}:{}", TYPES[n % 4]));
    format!(
        "fragment choose_{place}({}) -> (y: tensor)\n",
        joined(parameters)
    )
}

/// The arguments stand in another order than the parameters.
fn wide_call(place: usize) -> String {
    let arguments = (0..32).map(|n| (11 * n + place) % 32).map(|n| {
        let value = match n % 4 {
            0 => star(place * n / 32),
            1 => format!("{place}.25"),
            2 => place.to_string(),
            _ => "true".to_string(),
        };
        format!("limit{n} = {value}")
    });
    format!(
        "{} = choose_{place}({});\n",
        star(place + 1),
        joined(arguments)
    )
}

/// An operation of 32 parameters, of which 31 have a default, and calls that name
/// the other one. The canonical text comes near both limits.
fn many_defaults() -> Pair {
    let parameters = (1..32).map(|n| match n % 3 {
        0 => format!("limit_{n}: extent = {n}"),
        1 => format!("limit_{n}: scalar = {n}.5"),
        _ => format!("limit_{n}: string = 'band {n}'"),
    });
    let operation = format!(
        "fragment choose(star: tensor, {}) -> (y: tensor)\n",
        joined(parameters)
    );
    pair(
        operation.into_bytes(),
        "star0",
        "star30",
        lines(30, default_call),
    )
}

fn default_call(place: usize) -> String {
    format!("{} = choose(star = {});\n", star(place + 1), star(place))
}

fn joined(items: impl Iterator<Item = String>) -> String {
    items.collect::<Vec<_>>().join(",")
}

/// The list with `external` before its operations, and a document of these
/// calls, with one input and one output.
fn pair(operations: Vec<u8>, input: &str, output: &str, calls: Vec<u8>) -> Pair {
    let external = "fragment external(shape: extent[]) -> (output: tensor)\n";
    let head = format!(
        "version 1.0\ngraph stars({input}) -> ({output})\n{{\n{input} = external(shape = [1, 3]);\n"
    );
    Pair {
        list: [external.as_bytes(), &operations].concat(),
        document: [head.as_bytes(), &calls, b"}\n"].concat(),
    }
}
