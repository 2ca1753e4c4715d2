//! The command line.

use crate::near::nearest;
use crate::verbs::{entry, Entry, Verb, ENTRIES};
use std::ffi::{OsStr, OsString};
use std::os::unix::ffi::OsStrExt;

#[derive(Clone, Copy, Debug, PartialEq, Eq)]
pub enum Color {
    Auto,
    Always,
    Never,
}

/// A command line that is understood.
pub struct Arguments {
    pub verb: Verb,
    pub operands: Vec<OsString>,
    pub list: Option<OsString>,
    pub out: Option<OsString>,
    pub op: Option<String>,
    pub color: Color,
    pub json: bool,
    pub numbers: bool,
    pub all: bool,
    pub quiet: bool,
    pub svg: bool,
}

pub enum Line {
    Run(Arguments),
    Version,
    /// The help on everything, or on one command.
    Help(Option<&'static Entry>),
}

/// Why a command line is not understood, in a sentence.
pub struct Usage(pub String);

pub fn parse(words: impl IntoIterator<Item = OsString>) -> Result<Line, Usage> {
    let mut words = words.into_iter();
    let Some(first) = words.next() else {
        return usage("a command is missing");
    };
    match first.to_str() {
        Some("--version" | "-V") => return Ok(Line::Version),
        Some("--help" | "-h") => return Ok(Line::Help(None)),
        _ => {}
    }
    let name = first.to_string_lossy();
    let Some(entry) = entry(&name) else {
        let near = nearest(&name, ENTRIES.iter().map(|entry| entry.name));
        return usage(format!("there is no command {name}{}", near.map_or(String::new(), |near| format!(" (did you mean {near}?)"))));
    };
    let given = Given::read(entry, words)?;
    match given.help {
        true => Ok(Line::Help(Some(entry))),
        false => given.line(entry),
    }
}

fn usage<T>(sentence: impl Into<String>) -> Result<T, Usage> {
    Err(Usage(sentence.into()))
}

/// The options and operands of a line, as they stand.
#[derive(Default)]
struct Given {
    flags: Vec<&'static str>,
    values: Vec<(&'static str, OsString)>,
    operands: Vec<OsString>,
    help: bool,
}

/// Each option, its short form, and whether it takes a value.
const OPTIONS: [(&str, &str, bool); 11] = [
    ("--list", "-l", true),
    ("--out", "-o", true),
    ("--op", "", true),
    ("--color", "", true),
    ("--json", "", false),
    ("--numbers", "", false),
    ("--all", "", false),
    ("--quiet", "-q", false),
    ("--check", "", false),
    ("--dot", "", false),
    ("--svg", "", false),
];

impl Given {
    fn read(entry: &Entry, mut words: impl Iterator<Item = OsString>) -> Result<Given, Usage> {
        let mut given = Given::default();
        while let Some(word) = words.next() {
            let text = word.to_string_lossy().into_owned();
            if text == "--" {
                given.operands.extend(words);
                return Ok(given);
            }
            if text == "-" || !text.starts_with('-') {
                given.operands.push(word);
                continue;
            }
            if text == "--help" || text == "-h" {
                given.help = true;
                continue;
            }
            given.option(entry, &word, &mut words)?;
        }
        Ok(given)
    }

    fn option(&mut self, entry: &Entry, word: &OsStr, words: &mut impl Iterator<Item = OsString>) -> Result<(), Usage> {
        let bytes = word.as_bytes();
        let (name, joined) = match bytes.iter().position(|&byte| byte == b'=') {
            Some(sign) if bytes.starts_with(b"--") => (&bytes[..sign], Some(OsStr::from_bytes(&bytes[sign + 1..]).to_owned())),
            _ => (bytes, None),
        };
        let name = String::from_utf8_lossy(name);
        let known = OPTIONS.iter().find(|(long, short, _)| name == *long || name == *short);
        let Some(&(long, _, takes_value)) = known.filter(|(long, _, _)| entry.all_options().contains(long)) else {
            return usage(format!("{} takes no {name}", entry.name));
        };
        if !takes_value {
            self.flags.push(long);
            return match joined {
                Some(_) => usage(format!("{long} takes no value")),
                None => Ok(()),
            };
        }
        match joined.or_else(|| words.next()) {
            Some(value) => self.values.push((long, value)),
            None => return usage(format!("{name} needs a value")),
        }
        Ok(())
    }

    fn line(mut self, entry: &'static Entry) -> Result<Line, Usage> {
        if !entry.operands.contains(&self.operands.len()) {
            return usage(format!("{} takes {}", entry.name, operands(entry)));
        }
        if entry.verb == Verb::Help {
            return help(self.operands.first());
        }
        if self.operands.iter().chain(self.value("--list").iter()).filter(|operand| *operand == "-").count() > 1 {
            return usage("standard input can be read once");
        }
        self.required(entry)?;
        let color = self.color()?;
        let op = self.value("--op").map(|name| name.to_string_lossy().into_owned());
        let out = self.value("--out").filter(|out| out != "-");
        let ends_in_svg = out.as_ref().is_some_and(|out| out.to_string_lossy().ends_with(".svg"));
        Ok(Line::Run(Arguments {
            verb: entry.verb,
            list: self.value("--list"),
            op,
            color,
            json: self.flag("--json"),
            numbers: self.flag("--numbers"),
            all: self.flag("--all"),
            quiet: self.flag("--quiet"),
            svg: self.flag("--svg") || ends_in_svg && !self.flag("--dot"),
            out,
            operands: std::mem::take(&mut self.operands),
        }))
    }

    /// What a command cannot do without.
    fn required(&self, entry: &Entry) -> Result<(), Usage> {
        match entry.verb {
            Verb::Fmt if !self.flag("--check") => usage("fmt is run with --check; `canon -o OUT FILE` writes a canonical text"),
            Verb::Paths if self.value("--op").is_none() => usage("paths needs --op NAME"),
            Verb::Check if self.operands.is_empty() && self.value("--list").is_none() => usage("check takes one file or more"),
            _ if self.flag("--json") && self.flag("--numbers") => usage("--json and --numbers go apart"),
            _ => Ok(()),
        }
    }

    fn flag(&self, name: &str) -> bool {
        self.flags.contains(&name)
    }

    /// The last value of an option.
    fn value(&self, name: &str) -> Option<OsString> {
        self.values.iter().rev().find(|(option, _)| *option == name).map(|(_, value)| value.clone())
    }

    fn color(&self) -> Result<Color, Usage> {
        match self.value("--color").as_deref().and_then(OsStr::to_str) {
            None if self.value("--color").is_none() => Ok(Color::Auto),
            Some("auto") => Ok(Color::Auto),
            Some("always") => Ok(Color::Always),
            Some("never") => Ok(Color::Never),
            _ => usage("--color is auto, always or never"),
        }
    }
}

fn help(name: Option<&OsString>) -> Result<Line, Usage> {
    let Some(name) = name else {
        return Ok(Line::Help(None));
    };
    match entry(&name.to_string_lossy()) {
        Some(entry) => Ok(Line::Help(Some(entry))),
        None => usage(format!("there is no command {}", name.to_string_lossy())),
    }
}

fn operands(entry: &Entry) -> &'static str {
    match (entry.verb, entry.operands.end()) {
        (Verb::Explain, _) => "one code",
        (Verb::Order, _) => "a graph and an order",
        (Verb::Help, _) => "one command at most",
        (_, 1) if *entry.operands.start() == 0 => "one file at most",
        (_, 1) => "one file",
        (_, 2) => "two files",
        _ => "one file or more",
    }
}
