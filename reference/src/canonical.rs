//! The one text of an accepted document. A value's tokens are those of the
//! document or of the default, in their order, but for the sign of a minus zero;
//! only leaves are spelt anew.

use crate::binding::Binding;
use crate::graph::Graph;
use crate::limits;
use crate::number;
use crate::token::{Span, Symbol, Token};
use crate::tree::{Call, Document, Item, List, Parameter, Type};

/// The canonical text of a document under its operation list, unless it is
/// longer than a text may be.
pub fn canonical_text(list: &List, document: &Document, graph: &Graph) -> Option<Vec<u8>> {
    let mut writer = Writer::new(list, document);
    writer.head();
    for (call, [operation, ..]) in document.calls.iter().zip(&graph.calls) {
        writer.call(
            call,
            *operation as usize,
            call.arguments.of(&graph.bindings),
        );
        if !writer.keeps_limits() {
            return None;
        }
    }
    writer.marks(b"}\n", 1);
    writer.keeps_limits().then_some(writer.bytes)
}

struct Writer<'w> {
    list: &'w List<'w>,
    document: &'w Document<'w>,
    bytes: Vec<u8>,
    tokens: usize,
    /// For each parameter of the list where its default was written first, if it
    /// was. It is copied from there.
    defaults: Vec<Option<Written>>,
}

/// Bytes of the text, and how many tokens they are.
#[derive(Clone, Copy)]
struct Written {
    start: usize,
    end: usize,
    tokens: usize,
}

/// No bound value: the default is taken.
const UNBOUND: Span = Span { first: 0, end: 0 };

impl<'w> Writer<'w> {
    fn new(list: &'w List<'w>, document: &'w Document<'w>) -> Writer<'w> {
        Writer {
            list,
            document,
            bytes: Vec::with_capacity(2 * document.text.len() + 256),
            tokens: 0,
            defaults: vec![None; list.parameters.len()],
        }
    }

    /// Whether the text so far is no longer than a text may be.
    fn keeps_limits(&self) -> bool {
        self.bytes.len() <= limits::TEXT_BYTES && self.tokens <= limits::TOKENS
    }

    fn head(&mut self) {
        let document = self.document;
        self.marks(b"version 1.0\ngraph ", 3);
        self.name(document.name, document.text);
        self.marks(b"(", 1);
        self.left(document.inputs.of(&document.tokens));
        self.marks(b")->(", 3);
        self.left(document.outputs.of(&document.tokens));
        self.marks(b")\n{\n", 2);
    }

    fn call(&mut self, call: &Call, operation: usize, bindings: &[Binding]) {
        let (list, document) = (self.list, self.document);
        self.left(without_brackets(call.left.of(&document.tokens), call.bare));
        self.marks(b"=", 1);
        let operation = &list.operations[operation];
        self.name(operation.name, list.text);
        let mut values = [UNBOUND; limits::PARAMETERS];
        for (argument, binding) in call.arguments.of(&document.arguments).iter().zip(bindings) {
            if let Binding::Binds(place) = *binding {
                values[usize::from(place)] = argument.value;
            }
        }
        let first = usize::from(operation.parameters.first);
        for (place, parameter) in operation.parameters(list).iter().enumerate() {
            self.marks(if place == 0 { b"(" } else { b"," }, 1);
            self.name(parameter.name, list.text);
            self.marks(b"=", 1);
            match values[place] {
                UNBOUND => self.default(parameter, first + place),
                value => self.value(value.of(&document.tokens), document.text, parameter.ty),
            }
        }
        self.marks(b");\n", 2);
    }

    /// The default of the parameter at this place of the list.
    fn default(&mut self, parameter: &Parameter, place: usize) {
        if let Some(Written { start, end, tokens }) = self.defaults[place] {
            self.bytes.extend_from_within(start..end);
            self.tokens += tokens;
            return;
        }
        let (start, tokens) = (self.bytes.len(), self.tokens);
        let list = self.list;
        self.value(parameter.default.of(&list.tokens), list.text, parameter.ty);
        self.defaults[place] = Some(Written {
            start,
            end: self.bytes.len(),
            tokens: self.tokens - tokens,
        });
    }

    /// Names, brackets and commas as they are written.
    fn left(&mut self, tokens: &[Token]) {
        self.leaves(tokens, self.document.text, Item::Tensor);
    }

    /// A value that fits its type.
    fn value(&mut self, tokens: &[Token], text: &[u8], ty: Type) {
        if let Item::Tuple(_) = ty.item {
            self.typed(tokens, text, ty);
        } else {
            self.leaves(tokens, text, ty.item);
        }
    }

    /// Tokens whose leaves are all of this type.
    fn leaves(&mut self, tokens: &[Token], text: &[u8], item: Item) {
        self.tokens += tokens.len();
        for (place, token) in tokens.iter().enumerate() {
            let bytes = token.bytes(text);
            match token.symbol {
                Symbol::Whole if item == Item::Extent => {
                    self.bytes.extend_from_slice(number::plain(bytes));
                }
                Symbol::Whole | Symbol::Real => self.number(bytes),
                Symbol::String => self.string(bytes),
                Symbol::Name | Symbol::Truth => self.bytes.extend_from_slice(bytes),
                Symbol::Minus if number::is_zero(tokens[place + 1].bytes(text)) => {
                    self.tokens -= 1;
                }
                _ => self.bytes.push(bytes[0]),
            }
        }
    }

    /// The value that comes first, whose type may hold tuples; gives the tokens behind it.
    fn typed<'t>(&mut self, tokens: &'t [Token], text: &[u8], ty: Type) -> &'t [Token] {
        let list = self.list;
        let mut rest = self.one(tokens, text, ty);
        if ty.arrays > 0 {
            return self.typed_items(rest, text, ty.of_items());
        }
        if let Item::Tuple(types) = ty.item {
            for item in types.of(&list.types) {
                rest = self.typed(rest, text, *item);
                rest = self.one(rest, text, *item);
            }
        }
        rest
    }

    /// The items of an array and its closing bracket; gives the tokens behind it.
    fn typed_items<'t>(&mut self, items: &'t [Token], text: &[u8], ty: Type) -> &'t [Token] {
        let mut rest = items;
        while rest[0].symbol != Symbol::CloseSquare {
            rest = self.typed(rest, text, ty);
            if rest[0].symbol == Symbol::Comma {
                rest = self.one(rest, text, ty);
            }
        }
        self.one(rest, text, ty)
    }

    /// The token that comes first, a sign with its number; gives those behind it.
    fn one<'t>(&mut self, tokens: &'t [Token], text: &[u8], ty: Type) -> &'t [Token] {
        let signed = tokens[0].symbol == Symbol::Minus;
        let (first, rest) = tokens.split_at(if signed { 2 } else { 1 });
        self.leaves(first, text, ty.item);
        rest
    }

    /// A number that is no extent: mantissa, `e`, exponent.
    fn number(&mut self, bytes: &[u8]) {
        let mut spelling = [0; SPELLING_BYTES];
        let length = spell(bytes, &mut spelling);
        self.bytes.extend_from_slice(&spelling[..length]);
    }

    /// A string in single quotes, or in double ones when it holds a single one.
    fn string(&mut self, bytes: &[u8]) {
        let content = &bytes[1..bytes.len() - 1];
        let quote = if content.contains(&b'\'') {
            b'"'
        } else {
            b'\''
        };
        self.bytes.push(quote);
        self.bytes.extend_from_slice(content);
        self.bytes.push(quote);
    }

    fn name(&mut self, name: Token, text: &[u8]) {
        self.bytes.extend_from_slice(name.bytes(text));
        self.tokens += 1;
    }

    /// These bytes, which are so many tokens.
    fn marks(&mut self, bytes: &[u8], tokens: usize) {
        self.bytes.extend_from_slice(bytes);
        self.tokens += tokens;
    }
}

/// A number's digits, `e`, a sign and the three digits of an exponent.
const SPELLING_BYTES: usize = limits::NUMBER_BYTES + 5;

/// Spells a number that is in range, and gives the length.
fn spell(number: &[u8], out: &mut [u8; SPELLING_BYTES]) -> usize {
    let (mantissa, written) = number::mantissa_and_exponent(number);
    let mut fraction = mantissa.len();
    let mut digits = 0;
    for (place, &byte) in mantissa.iter().enumerate() {
        if byte == b'.' {
            fraction = place + 1;
        } else if byte != b'0' || digits > 0 {
            out[digits] = byte;
            digits += 1;
        }
    }
    if digits == 0 {
        out[..3].copy_from_slice(b"0e0");
        return 3;
    }
    let mut length = digits;
    while out[length - 1] == b'0' {
        length -= 1;
    }
    let exponent = written + (digits - length) as i32 - (mantissa.len() - fraction) as i32;
    out[length] = b'e';
    length + 1 + spell_exponent(exponent, &mut out[length + 1..])
}

/// Spells an exponent, which has at most three digits, and gives the length.
fn spell_exponent(exponent: i32, out: &mut [u8]) -> usize {
    let mut length = 0;
    let mut push = |byte: u8| {
        out[length] = byte;
        length += 1;
    };
    if exponent < 0 {
        push(b'-');
    }
    let size = exponent.unsigned_abs();
    if size >= 100 {
        push(b'0' + (size / 100) as u8);
    }
    if size >= 10 {
        push(b'0' + (size / 10 % 10) as u8);
    }
    push(b'0' + (size % 10) as u8);
    length
}

/// The tokens of a left side; a tuple at its top loses its brackets.
fn without_brackets(left: &[Token], bare: bool) -> &[Token] {
    match left {
        [open, items @ .., _] if !bare && open.symbol == Symbol::OpenRound => items,
        _ => left,
    }
}

#[cfg(test)]
mod tests {
    use super::{canonical_text, spell, SPELLING_BYTES};
    use crate::{good_document, good_list, lexer};

    const LIST: &[u8] = b"fragment external(shape: extent[]) -> (output: tensor) \
        fragment scale(x: tensor, by: scalar = 1) -> (y: tensor)";
    const DOCUMENT: &[u8] = b"version 1.0 graph win(px) -> (out) { \
        px = external(shape=[01,9]); out = scale(px, by=0.50) }";
    const CANONICAL: &[u8] = b"version 1.0\ngraph win(px)->(out)\n{\n\
        px=external(shape=[1,9]);\nout=scale(x=px,by=5e-1);\n}\n";

    fn written(list: &[u8], document: &[u8]) -> Vec<u8> {
        let list = good_list(list).unwrap();
        let (document, graph) = good_document(&list, document).unwrap();
        canonical_text(&list, &document, &graph).unwrap()
    }

    #[test]
    fn worked_example() {
        for document in [DOCUMENT, CANONICAL] {
            let text = written(LIST, document);
            assert_eq!(text, CANONICAL);
            // The tokens and the text's end.
            assert_eq!((text.len(), lexer::lex(&text).unwrap().len()), (88, 39 + 1));
        }
    }

    #[test]
    fn numbers() {
        for (number, spelling) in [
            ("0.0500e3", "5e1"),
            ("000", "0e0"),
            ("0.00e12", "0e0"),
            ("120", "12e1"),
            ("1200.3400", "120034e-2"),
            ("100.00E+7", "1e9"),
            ("0.0012e-0100", "12e-104"),
            ("1e999", "1e999"),
        ] {
            let mut out = [0; SPELLING_BYTES];
            let length = spell(number.as_bytes(), &mut out);
            assert_eq!(&out[..length], spelling.as_bytes(), "{number}");
        }
    }

    #[test]
    fn tuples() {
        let list = b"fragment external(shape: extent[]) -> (output: tensor) \
            fragment f(x: (tensor, tensor[])[], by: (extent, scalar[])[][] = [[(01, [2])], []]) \
            -> (y: tensor, z: (tensor, tensor))";
        let document = b"version 1.0 graph g(a) -> (b) { a = external(shape = []) \
            (b, (c, d)) = f([(a, [a, 01]), (true, [])]); e, (h, i) = f([], by = [[]]) }";
        let text = b"version 1.0\ngraph g(a)->(b)\n{\na=external(shape=[]);\n\
            b,(c,d)=f(x=[(a,[a,1e0]),(true,[])],by=[[(1,[2e0])],[]]);\n\
            e,(h,i)=f(x=[],by=[[]]);\n}\n";
        assert_eq!(written(list, document), text);
        assert_eq!(written(list, text), text);
    }

    #[test]
    fn signs() {
        let list = b"fragment external(shape: extent[]) -> (output: tensor) \
            fragment f(x: tensor, by: (extent, scalar)[] = [(-01, -1.50), (-0, - 0e5)], \
            at: extent = - # the least\n2147483648, to: extent[] = [-0, -2]) -> (y: tensor)";
        let document = b"version 1.0 graph g(a) -> (b) { a = external(shape = [-1]) \
            b = f(-0.0, to = []); c = f(-2) d = f(- 20, at = -0, by = [(- 3, 4)]) }";
        let text = b"version 1.0\ngraph g(a)->(b)\n{\na=external(shape=[-1]);\n\
            b=f(x=0e0,by=[(-1,-15e-1),(0,0e0)],at=-2147483648,to=[]);\n\
            c=f(x=-2e0,by=[(-1,-15e-1),(0,0e0)],at=-2147483648,to=[0,-2]);\n\
            d=f(x=-2e1,by=[(-3,4e0)],at=0,to=[0,-2]);\n}\n";
        assert_eq!(written(list, document), text);
        assert_eq!(written(list, text), text);
    }

    #[test]
    fn tokens_are_counted() {
        let list = b"fragment external(shape: extent[], to: extent[] = [-0,-1]) -> (y: tensor) \
            fragment f(x: tensor) -> (y: tensor)";
        let fills = |last: &str| {
            let items = "-1,".repeat(1_350) + "1,1,";
            let document = format!(
                "version 1.0 graph g(a) -> (b) {{ a = external(shape = [{items}{last}]) b = f(a) }}"
            );
            let list = good_list(list).unwrap();
            let (document, graph) = good_document(&list, document.as_bytes()).unwrap();
            let text = canonical_text(&list, &document, &graph)?;
            Some(lexer::lex(&text).unwrap().len() - 1)
        };
        assert_eq!(fills("1"), Some(4_096));
        assert_eq!(fills("-0"), Some(4_096));
        assert_eq!(fills("-1"), None);
    }

    #[test]
    fn answers() {
        for (lent, answer) in [
            (88, [0, 0, 0, 88]),
            (100, [0, 0, 0, 88]),
            (87, [26, 0, 0, 88]),
        ] {
            let mut work = [vec![7; 16_384], vec![7; 16_400]];
            let [list_work, document_work] = &mut work;
            let mut out = vec![7; lent];
            let given = crate::canon(LIST, DOCUMENT, list_work, document_work, &mut out);
            let written = if answer[0] == 0 { CANONICAL } else { b"" };
            assert_eq!(given.numbers(), answer);
            assert!(out.starts_with(written));
            assert!(out[written.len()..].iter().all(|&byte| byte == 7));
            assert!(work.concat().iter().all(|&word| word == 0));
        }
    }
}
