//! The tables of what was measured, in thousands: of nanoseconds or of instructions.
//! Only that of `compare` is in single ones.

use crate::inputs::{self, Input};
use crate::library::TABLE_WORDS;
use crate::sides::{Lent, CHECK, COMPARE, TOKENS};
use std::fs;

/// What was measured of both sides.
#[derive(Clone, Copy)]
struct Figure {
    library: f64,
    reference: f64,
}

/// The figures that are not taken yet, in the order in which they were measured.
pub struct Figures(std::vec::IntoIter<Figure>);

impl Figures {
    /// The least figures of files with a line for each, or the totals of files of
    /// callgrind, which has one for each call of each side.
    pub fn of(files: &[&str]) -> Figures {
        let texts: Vec<String> = files
            .iter()
            .map(|file| fs::read_to_string(file).unwrap_or_else(|error| panic!("{file}: {error}")))
            .collect();
        let totals: Vec<f64> = texts.iter().filter_map(|text| total(text)).collect();
        let figures: Vec<Figure> = match totals.len() {
            0 => least(&texts),
            _ => totals.chunks(2).map(Figure::new).collect(),
        };
        Figures(figures.into_iter())
    }

    fn take(&mut self) -> Figure {
        self.0.next().expect("there is a figure for each input")
    }
}

impl Figure {
    fn new(sides: &[f64]) -> Figure {
        Figure {
            library: sides[0],
            reference: sides[1],
        }
    }

    fn ratio(self) -> f64 {
        self.library / self.reference
    }

    /// The cells of both sides and of their ratio.
    fn cells(self) -> String {
        let [library, reference] = [self.library, self.reference].map(in_thousands);
        format!("| {library} | {reference} | {:.2} ", self.ratio())
    }
}

/// The instructions that a file of callgrind counts, if it is one.
fn total(text: &str) -> Option<f64> {
    let total = text.lines().find_map(|line| line.strip_prefix("totals: "));
    total.and_then(|total| total.parse().ok())
}

/// The least figures, line by line.
fn least(texts: &[String]) -> Vec<Figure> {
    let mut least: Vec<Figure> = Vec::new();
    for text in texts {
        for (place, line) in text.lines().enumerate() {
            let sides = line.split(' ').map(|side| side.parse().expect("a number"));
            let next = Figure::new(&sides.collect::<Vec<f64>>());
            match least.get_mut(place) {
                None => least.push(next),
                Some(figure) => {
                    figure.library = figure.library.min(next.library);
                    figure.reference = figure.reference.min(next.reference);
                }
            }
        }
    }
    least
}

/// Prints all tables, that of `compare` in thousandths of the unit.
pub fn print(unit: &str, thousandth: &str, figures: &mut Figures) {
    println!("In {unit}.\n");
    print_tokens(figures);
    print_pairs(&inputs::inputs(), figures);
    print_growth(figures);
    print_pairs(&[inputs::colliding()], figures);
    println!("In {thousandth}.\n");
    print_names(figures);
}

fn print_tokens(figures: &mut Figures) {
    println!("| `tokens` of | bytes | tokens | library | reference | ratio |");
    println!("|---|---|---|---|---|---|");
    let mut ratios = Vec::new();
    for (name, text) in inputs::texts() {
        let [mut one, mut other] = [vec![7; TABLE_WORDS], vec![7; TABLE_WORDS]];
        let [_, _, _, count] = TOKENS.agreed(name, &text, &mut one, &mut other);
        let figure = figures.take();
        println!("| {name} | {} | {count} {}|", text.len(), figure.cells());
        ratios.push(figure.ratio());
    }
    for (name, figure) in ENDS {
        println!("| {name} | | | | | {:.2} |", figure(&ratios));
    }
    println!();
}

/// A row for each pair, and what comes of several.
fn print_pairs(inputs: &[Input], figures: &mut Figures) {
    println!(
        "| input | list, bytes | document, bytes | calls | `check`: library | reference | ratio \
         | `canon`: code | library | reference | ratio | `order`: library | reference | ratio |"
    );
    println!("|---|---|---|---|---|---|---|---|---|---|---|---|---|---|");
    let [mut checks, mut canons, mut orders] = [Vec::new(), Vec::new(), Vec::new()];
    for Input { name, pair, code } in inputs {
        let [_, _, _, calls] = CHECK.agreed(name, pair, &mut Lent::new(), &mut Lent::new());
        let [check, canon, order] = [(); 3].map(|()| figures.take());
        let (list, document) = (pair.list.len(), pair.document.len());
        let [check_cells, canon_cells, order_cells] = [check, canon, order].map(Figure::cells);
        println!(
            "| {name} | {list} | {document} | {calls} {check_cells}| {code} {canon_cells}{order_cells}|"
        );
        checks.push(check.ratio());
        canons.push(canon.ratio());
        orders.push(order.ratio());
    }
    if inputs.len() > 1 {
        for (name, figure) in ENDS {
            let [check, canon, order] = [&checks, &canons, &orders].map(|ratios| figure(ratios));
            println!("| {name} | | | | | | {check:.2} | | | | {canon:.2} | | | {order:.2} |");
        }
    }
    println!();
}

/// A row for each pair of names.
fn print_names(figures: &mut Figures) {
    println!("| `compare`: names | bytes | pairs | library | reference | ratio |");
    println!("|---|---|---|---|---|---|");
    let mut ratios = Vec::new();
    for (name, names) in inputs::names() {
        let [_, pairs] = COMPARE.agreed(name, &names, &mut (), &mut ());
        let [a, b] = names.map(|name| name.len());
        let bytes = match a == b {
            true => a.to_string(),
            false => format!("{a}, {b}"),
        };
        let figure = figures.take();
        let Figure { library, reference } = figure;
        let ratio = figure.ratio();
        println!("| {name} | {bytes} | {pairs} | {library:.1} | {reference:.1} | {ratio:.2} |");
        ratios.push(ratio);
    }
    for (name, figure) in ENDS {
        println!("| {name} | | | | | {:.2} |", figure(&ratios));
    }
    println!();
}

/// A row for each sort of growing pairs and each operation, with the slopes of
/// the figures over the document's bytes.
fn print_growth(figures: &mut Figures) {
    println!("| library (ratio) | 2 KB | 4 KB | 8 KB | 16 KB | slope: library | reference |");
    println!("|---|---|---|---|---|---|---|");
    for (name, inputs) in inputs::growth() {
        let measured = inputs.map(|input| {
            let bytes = input.pair.document.len() as f64;
            (bytes, [(); 3].map(|()| figures.take()))
        });
        for (place, operation) in ["check", "canon", "order"].into_iter().enumerate() {
            let points = measured.map(|(bytes, all)| (bytes, all[place]));
            let cells = points.map(|(_, figure)| {
                format!(
                    "| {} ({:.2}) ",
                    in_thousands(figure.library),
                    figure.ratio()
                )
            });
            let library = slope(points.map(|(bytes, figure)| (bytes, figure.library)));
            let reference = slope(points.map(|(bytes, figure)| (bytes, figure.reference)));
            let cells = cells.concat();
            println!("| {name}, `{operation}` {cells}| {library:.2} | {reference:.2} |");
        }
    }
    println!();
}

/// A figure of all ratios of a table, with its name.
type End = (&'static str, fn(&[f64]) -> f64);

const ENDS: [End; 2] = [("worst ratio", worst), ("geometric mean", mean)];

fn worst(ratios: &[f64]) -> f64 {
    ratios.iter().copied().fold(0.0, f64::max)
}

/// The geometric mean.
fn mean(ratios: &[f64]) -> f64 {
    let logarithms: f64 = ratios.iter().map(|ratio| ratio.ln()).sum();
    (logarithms / ratios.len() as f64).exp()
}

/// The slope of the straight line through the logarithms of the points, by least squares.
fn slope(points: [(f64, f64); 4]) -> f64 {
    let points = points.map(|(x, y)| (x.ln(), y.ln()));
    let count = points.len() as f64;
    let mean_x = points.iter().map(|(x, _)| x).sum::<f64>() / count;
    let mean_y = points.iter().map(|(_, y)| y).sum::<f64>() / count;
    let rises = points.map(|(x, y)| (x - mean_x) * (y - mean_y));
    let runs = points.map(|(x, _)| (x - mean_x).powi(2));
    rises.iter().sum::<f64>() / runs.iter().sum::<f64>()
}

/// A figure in thousands: fewer places behind the point the greater it is, and a
/// comma between thousands of thousands.
fn in_thousands(figure: f64) -> String {
    let tenths = (figure / 100.0).round() as u64;
    match tenths {
        0..10 => format!("{:.3}", figure / 1_000.0),
        10..100 => format!("{:.2}", figure / 1_000.0),
        100..10_000 => format!("{:.1}", figure / 1_000.0),
        _ => format!(
            "{},{:03}.{}",
            tenths / 10_000,
            tenths / 10 % 1_000,
            tenths % 10
        ),
    }
}
