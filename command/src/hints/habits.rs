//! Habits of ordinary NNEF 1.0 files, and others, that flat graphs do not have.

use super::Hint;
use sluicegnome::Kind;

/// What stands around a token that cannot stand there.
pub struct Setting<'a> {
    /// Whether the text is an operation list.
    pub list: bool,
    /// The tokens before it, the last one first.
    pub before: Vec<&'a str>,
    pub found: Option<&'a str>,
    pub kind: Option<Kind>,
    pub after: Option<&'a str>,
    /// What may stand there, in words.
    pub expected: &'a str,
    /// Whether lines end in a way that no comment ends at.
    pub comments_run_on: bool,
}

impl Setting<'_> {
    fn last(&self) -> &str {
        self.before.first().copied().unwrap_or_default()
    }

    fn last_but_one(&self) -> &str {
        self.before.get(1).copied().unwrap_or_default()
    }

    fn value_may_stand(&self) -> bool {
        self.expected.contains("a literal")
    }
}

/// The hint with the cause and the help that go with the setting, if it is known.
pub fn hint(plain: Hint, setting: &Setting) -> Hint {
    let of_text = || if setting.list { in_list(setting) } else { in_document(setting) };
    match behind_sign(setting).or_else(of_text).or_else(|| anywhere(setting)) {
        Some((cause, help)) => plain.caused_by(cause).helped_by(help),
        None => plain,
    }
}

type Words = (String, String);

fn words(cause: &str, help: &str) -> Option<Words> {
    Some((cause.to_string(), help.to_string()))
}

/// What stands where a sign asks for a number.
fn behind_sign(setting: &Setting) -> Option<Words> {
    let found = setting.found?;
    if setting.last() != "-" || setting.expected != "a number" {
        return None;
    }
    let help = match (found, setting.kind) {
        ("-", _) => "leave one of the two signs out",
        ("[" | "(", _) => "write the sign before each number inside",
        (_, Some(Kind::String | Kind::Logical)) => "leave out the sign",
        (_, Some(Kind::Name)) if !setting.list => "use an operation of the list that subtracts or negates",
        _ => "write a number behind it, or leave it out",
    };
    words("a sign stands before a number alone", help)
}

fn in_document(setting: &Setting) -> Option<Words> {
    let begins = setting.before.is_empty();
    match setting.found? {
        "-" | "+" if setting.last() == "version" => words("the version has no sign", "write `version 1.0`"),
        ";" if setting.last_but_one() == "version" => words("ordinary NNEF 1.0 files write `version 1.0;`", "leave out the `;`"),
        "extension" => words("`extension` belongs to ordinary NNEF 1.0 files", "remove it up to its `;`: no extension is read"),
        "<" if setting.last_but_one() == "=" => {
            let name = setting.last();
            Some((format!("ordinary NNEF 1.0 files write `{name}<scalar>(`"), format!("write `{name}(`, without the type")))
        }
        "fragment" if begins => words("this is an operation list and not a graph", "name the list with -l, and give a graph as the file"),
        "fragment" => words("a document has one graph and no fragments", "put declarations into the operation list, without bodies"),
        "graph" if begins => words("the version is missing", "begin the file with `version 1.0`"),
        "[" if setting.expected.contains("`)`") => words("subscripts are not read", "use an operation of the list"),
        "(" if setting.expected.contains("`)`") => {
            words("a call inside a call is not read", "give it a line of its own, and use the identifier that it assigns")
        }
        _ if setting.expected == "the end of the text" => {
            words("a document ends with the `}` of its one graph", "remove what stands behind it")
        }
        _ if setting.expected == "an operation's name" && setting.kind != Some(Kind::Keyword) => {
            words("the right side is one call: values stand as its arguments alone", "call an operation of the list")
        }
        _ => None,
    }
}

fn in_list(setting: &Setting) -> Option<Words> {
    match setting.found? {
        "integer" if setting.last() == ":" || setting.last() == "(" || setting.last() == "," => {
            words("`integer` is the later name of `extent`", "write `extent`")
        }
        "<" if setting.last() == "tensor" => words("ordinary NNEF 1.0 files write `tensor<scalar>`", "write `tensor` alone"),
        "<" => words("fragments that leave a type open, as `<?>`, are not read", "write the name alone"),
        "{" => words("bodies of fragments are not read", "remove the body, from `{` to `}`"),
        ";" => words("ordinary NNEF 1.0 files end a declaration with `;`", "leave out the `;`"),
        "-" | "+" if setting.expected.contains("`)`") => words("operator expressions are not read", "write the value itself"),
        "version" | "graph" => words("this is a graph and not an operation list", "name the operation list with -l LIST"),
        _ if setting.expected == "`]`" && setting.last() == "[" => words("an array type has no length", "write `[]` alone"),
        _ if setting.kind == Some(Kind::Name) && setting.last() == "=" => {
            words("a default holds no names", "write a number, a string, true or false")
        }
        _ => None,
    }
}

fn anywhere(setting: &Setting) -> Option<Words> {
    let Some(found) = setting.found else {
        return match setting.comments_run_on {
            true => words("lines end with a carriage return alone, so a comment runs to the end of the text", "end lines with a line feed"),
            false => words("something is missing at the end, or a bracket is not closed", "complete the text"),
        };
    };
    match found {
        "/" if setting.after == Some("/") || setting.after == Some("*") => words("comments begin with `#`", "write `#` for each line"),
        "-" if setting.after == Some(">") && setting.expected.contains("`->`") => words("`->` is one token", "write it without a blank"),
        "+" if setting.value_may_stand() => words("a number has no plus sign", "leave it out"),
        "-" | "+" if setting.expected.contains("a name") => words("names alone stand here", "write a name, without a sign"),
        "shape_of" | "length_of" | "range_of" | "for" | "in" | "if" | "else" if setting.value_may_stand() => {
            Some((format!("`{found}` belongs to expressions, which are not read"), "write the value itself".to_string()))
        }
        ")" | "]" if setting.last() == "," => words("a comma stands before the closing bracket", "leave out the comma"),
        ")" if setting.last() == "(" => words("brackets of headers, calls and tuples are never empty", "write at least one item"),
        ";" | "}" if setting.expected.contains("`)`") => words("a closing bracket is missing", "write `)` before it"),
        ";" | "}" | ")" if setting.expected.contains("`]`") => words("a closing bracket is missing", "write `]` before it"),
        ")" if setting.expected == "`,`" => words("a tuple has at least two items", "leave out its brackets, or write an array: `[a]`"),
        _ if setting.kind == Some(Kind::Operator) => words("operator expressions are not read", "use an operation of the list"),
        _ if setting.kind == Some(Kind::Keyword) && setting.expected.contains("name") => {
            Some((format!("`{found}` is a keyword and cannot be a name"), format!("use another name, such as `{found}_`")))
        }
        _ => None,
    }
}
