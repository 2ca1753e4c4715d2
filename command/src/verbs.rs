//! The commands: their usage, their help, and the options that each takes.

use std::ops::RangeInclusive;

#[derive(Clone, Copy, Debug, PartialEq, Eq)]
pub enum Verb {
    Check,
    Canon,
    Diff,
    Fmt,
    Show,
    Paths,
    Graph,
    Tokens,
    Calls,
    Order,
    Explain,
    Help,
}

pub struct Entry {
    pub verb: Verb,
    pub name: &'static str,
    pub usage: &'static str,
    pub summary: &'static str,
    pub more: &'static str,
    pub reads: Reads,
    /// The options that it has beside those of what it reads.
    pub options: &'static [&'static str],
    pub operands: RangeInclusive<usize>,
}

/// What a command reads.
#[derive(Clone, Copy, Debug, PartialEq, Eq)]
pub enum Reads {
    Nothing,
    /// Texts by themselves.
    Texts,
    /// Graphs under an operation list.
    Graphs,
}

/// The options of every command that reads texts.
const OF_TEXTS: [&str; 5] = ["--json", "--numbers", "--all", "--color", "--quiet"];

impl Entry {
    /// All options that the command takes.
    pub fn all_options(&self) -> Vec<&'static str> {
        let list: &[&str] = if self.reads == Reads::Graphs { &["--list"] } else { &[] };
        let of_texts: &[&str] = if self.reads == Reads::Nothing { &[] } else { &OF_TEXTS };
        [list, self.options, of_texts].concat()
    }
}

pub static ENTRIES: [Entry; 12] = [
    Entry {
        verb: Verb::Check,
        name: "check",
        usage: "check [-l LIST] FILE...",
        summary: "the verdict on each graph; faults with the source line and a caret",
        more: "Lines and columns count from 1, columns in bytes. Without a FILE, and with -l, the operation list alone is checked.",
        reads: Reads::Graphs,
        options: &[],
        operands: 0..=usize::MAX,
    },
    Entry {
        verb: Verb::Canon,
        name: "canon",
        usage: "canon [-l LIST] [-o OUT] [FILE|-]",
        summary: "the canonical text of a graph, or nothing",
        more: "Standard output is the canonical text or nothing. OUT is written whole or not at all; - is standard output. Without a FILE,\n\
               standard input is read.",
        reads: Reads::Graphs,
        options: &["--out"],
        operands: 0..=1,
    },
    Entry {
        verb: Verb::Diff,
        name: "diff",
        usage: "diff [-l LIST] A B",
        summary: "what two graphs say differently, by call and parameter",
        more: "The first line says it all in short. Then come the calls with their values in decimal, each marked (default) where the list\n\
               gives it and (written) where the file does, and then the canonical lines. Exit status: 0 equal, 1 different, 4 if either file\n\
               was refused.",
        reads: Reads::Graphs,
        options: &[],
        operands: 2..=2,
    },
    Entry {
        verb: Verb::Fmt,
        name: "fmt",
        usage: "fmt --check [-l LIST] FILE...",
        summary: "names the files that are not canonical",
        more: "Files are never changed: `nnef canon -o OUT FILE` writes the canonical text.",
        reads: Reads::Graphs,
        options: &["--check"],
        operands: 1..=usize::MAX,
    },
    Entry {
        verb: Verb::Show,
        name: "show",
        usage: "show [-l LIST] FILE",
        summary: "the canonical text, and beside it which values are defaults of the list",
        more: "What stands beside is a comment: the text still says the same.",
        reads: Reads::Graphs,
        options: &[],
        operands: 1..=1,
    },
    Entry {
        verb: Verb::Paths,
        name: "paths",
        usage: "paths [-l LIST] --op NAME FILE",
        summary: "how many times NAME stands on a path from an input to each output",
        more: "A path goes from a graph's input along the wires, from call to call, to an output. Counted are the calls of the operation NAME\n\
               on it, the fewest and the most over all paths. Parameters of other operations that share a word with NAME are named too, with\n\
               their values: a correction may hide in a default.",
        reads: Reads::Graphs,
        options: &["--op"],
        operands: 1..=1,
    },
    Entry {
        verb: Verb::Graph,
        name: "graph",
        usage: "graph [-l LIST] [--dot|--svg] [-o OUT] FILE",
        summary: "the calls and wires as a drawing, defaults shown",
        more: "The drawing is DOT, or SVG with --svg or with an OUT that ends in .svg; no other program is needed for either.",
        reads: Reads::Graphs,
        options: &["--dot", "--svg", "--out"],
        operands: 1..=1,
    },
    Entry {
        verb: Verb::Tokens,
        name: "tokens",
        usage: "tokens FILE",
        summary: "the tokens of a text",
        more: "Each line is a token: line:column, kind, spelling.",
        reads: Reads::Texts,
        options: &[],
        operands: 1..=1,
    },
    Entry {
        verb: Verb::Calls,
        name: "calls",
        usage: "calls [-l LIST] FILE",
        summary: "the calls of a graph, and which call each identifier comes from",
        more: "Each line is a call: its index, line:column, left side and operation; then what it uses and the index of the call that assigns it.",
        reads: Reads::Graphs,
        options: &[],
        operands: 1..=1,
    },
    Entry {
        verb: Verb::Order,
        name: "order",
        usage: "order [-l LIST] FILE ORDERFILE",
        summary: "whether an order has each call of a graph once, and after what it uses",
        more: "ORDERFILE has a number for each call, in decimal, with white space between them; a comment runs from # to the end of its line.\n\
               Calls have the numbers that `nnef calls` gives them. Calls and places of the order count from 0.",
        reads: Reads::Graphs,
        options: &[],
        operands: 2..=2,
    },
    Entry {
        verb: Verb::Explain,
        name: "explain",
        usage: "explain CODE",
        summary: "what a code means, its likely cause and its mend",
        more: "CODE is a number from 0 to 26 or 41 to 44, E and the number, or a name such as UNDECLARED.",
        reads: Reads::Nothing,
        options: &["--json", "--color"],
        operands: 1..=1,
    },
    Entry {
        verb: Verb::Help,
        name: "help",
        usage: "help [COMMAND]",
        summary: "this text, or more on one command",
        more: "",
        reads: Reads::Nothing,
        options: &[],
        operands: 0..=1,
    },
];

pub fn entry(name: &str) -> Option<&'static Entry> {
    ENTRIES.iter().find(|entry| entry.name == name)
}

const OPTIONS: &str = "  -l, --list LIST   the operation list (default: declarations.nnef)
  --json            the answer as JSON, an object a line
  --numbers         the library's four numbers alone, a line for each file
  --all             every fault of the stage, the proved first one marked
  --color WHEN      auto, always or never
  -q, --quiet       nothing about verdicts; the exit status says it
  --version, --help";

const STATUS: &str = "\
exit status: 0 accepted, equal or canonical; 1 refused, different or not canonical; 2 usage; 3 cannot read or write;
             of diff 4 if either file was refused";

/// The help on everything.
pub fn overview() -> String {
    let mut text = "usage: nnef COMMAND [OPTION]... [FILE]...\n\nReads flat NNEF graphs against a list of operations. \
                    Verdicts and canonical texts are the proved library's.\n\n"
        .to_string();
    for entry in &ENTRIES {
        text += &format!("  nnef {:<44} {}\n", entry.usage, entry.summary);
    }
    text + &format!("\n{OPTIONS}\n\nFILE, or ORDERFILE, may be - for standard input.\n{STATUS}\n")
}

/// The help on one command.
pub fn help(entry: &Entry) -> String {
    let more = if entry.more.is_empty() { String::new() } else { format!("\n{}\n", entry.more) };
    let options = entry.all_options();
    let options = if options.is_empty() { String::new() } else { format!("options: {}\n", options.join(" ")) };
    format!("usage: nnef {}\n\n{}\n{more}\n{options}{STATUS}\n", entry.usage, entry.summary)
}
