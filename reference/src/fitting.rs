//! Which values a type takes.

use crate::number;
use crate::token::{Span, Symbol, Symbols, Token};
use crate::tree::{Item, Leaf, Type};

/// Values of one text, held against the types of a list.
#[derive(Clone, Copy)]
pub struct Fitting<'a> {
    pub types: &'a [Type],
    pub text: &'a [u8],
}

impl<'a> Fitting<'a> {
    /// Whether a value fits a type. A left side matches the results when it fits
    /// their type: its leaves are names, and a name fits tensor alone.
    pub fn fits(self, value: &[Token], ty: Type) -> bool {
        match value {
            [leaf] => ty.arrays == 0 && self.leaf_fits(Leaf::plain(*leaf), ty.item),
            [open, items @ .., _] if ty.arrays == 1 && !is_tuple(ty.item) => {
                open.symbol == Symbol::OpenSquare && self.leaves_fit(items, ty.item)
            }
            _ => self.rest_of_value(value, ty).is_some(),
        }
    }

    /// Whether a left side that is a tuple without brackets matches a type.
    pub fn bare_fits(self, left: &[Token], ty: Type) -> bool {
        match ty.item {
            Item::Tuple(types) if ty.arrays == 0 => {
                let rest = self.rest_of_items(left, types);
                rest.is_some_and(<[Token]>::is_empty)
            }
            _ => false,
        }
    }

    /// The tokens behind the value that comes first, if it fits.
    fn rest_of_value(self, tokens: &[Token], ty: Type) -> Option<&[Token]> {
        if ty.arrays > 0 {
            let items = behind(tokens, Symbol::OpenSquare)?;
            return self.rest_of_array(items, ty.of_items());
        }
        if let Item::Tuple(types) = ty.item {
            let items = behind(tokens, Symbol::OpenRound)?;
            return behind(self.rest_of_items(items, types)?, Symbol::CloseRound);
        }
        let (leaf, rest) = Leaf::first(tokens)?;
        self.leaf_fits(leaf, ty.item).then_some(rest)
    }

    /// The tokens behind an array whose opening bracket is taken, if its items fit.
    fn rest_of_array(self, mut tokens: &[Token], ty: Type) -> Option<&[Token]> {
        if let Some(rest) = behind(tokens, Symbol::CloseSquare) {
            return Some(rest);
        }
        loop {
            let rest = self.rest_of_value(tokens, ty)?;
            match behind(rest, Symbol::Comma) {
                Some(rest) => tokens = rest,
                None => return behind(rest, Symbol::CloseSquare),
            }
        }
    }

    /// The tokens behind items with commas between them, if each fits its type.
    fn rest_of_items(self, mut tokens: &[Token], types: Span) -> Option<&[Token]> {
        let (last, others) = types.of(self.types).split_last()?;
        for ty in others {
            tokens = behind(self.rest_of_value(tokens, *ty)?, Symbol::Comma)?;
        }
        self.rest_of_value(tokens, *last)
    }

    /// Whether the items of an array, with commas between them, are leaves that fit.
    fn leaves_fit(self, mut items: &[Token], item: Item) -> bool {
        while let Some((leaf, rest)) = Leaf::first(items) {
            if !self.leaf_fits(leaf, item) {
                return false;
            }
            items = rest.get(1..).unwrap_or_default();
        }
        true
    }

    #[inline(always)]
    fn leaf_fits(self, Leaf { negative, token }: Leaf, item: Item) -> bool {
        leaves(item).has(token.symbol)
            && (item != Item::Extent || number::is_extent(token.bytes(self.text), negative))
    }
}

impl Type {
    /// The type of an array's items.
    pub fn of_items(self) -> Type {
        Type {
            arrays: self.arrays - 1,
            ..self
        }
    }

    /// Whether it is tensor, an array of such, or a tuple of only such.
    pub fn is_all_tensor(self, types: &[Type]) -> bool {
        match self.item {
            Item::Tensor => true,
            Item::Extent | Item::Scalar | Item::Logical | Item::String => false,
            Item::Tuple(items) => items.of(types).iter().all(|ty| ty.is_all_tensor(types)),
        }
    }
}

/// The leaves that fit, of an extent if they are within its bounds.
fn leaves(item: Item) -> Symbols {
    const TENSOR: Symbols =
        Symbols::of(&[Symbol::Name, Symbol::Whole, Symbol::Real, Symbol::Truth]);
    const EXTENT: Symbols = Symbols::of(&[Symbol::Whole]);
    const SCALAR: Symbols = Symbols::of(&[Symbol::Whole, Symbol::Real]);
    const LOGICAL: Symbols = Symbols::of(&[Symbol::Truth]);
    const STRING: Symbols = Symbols::of(&[Symbol::String]);
    const TUPLE: Symbols = Symbols::of(&[]);
    match item {
        Item::Tensor => TENSOR,
        Item::Extent => EXTENT,
        Item::Scalar => SCALAR,
        Item::Logical => LOGICAL,
        Item::String => STRING,
        Item::Tuple(_) => TUPLE,
    }
}

fn is_tuple(item: Item) -> bool {
    matches!(item, Item::Tuple(_))
}

/// The tokens behind this one, if it comes first.
fn behind(tokens: &[Token], symbol: Symbol) -> Option<&[Token]> {
    match tokens {
        [first, rest @ ..] if first.symbol == symbol => Some(rest),
        _ => None,
    }
}
