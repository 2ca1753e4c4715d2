//! The codes that operations answer with.

use crate::raw;
use std::fmt;

/// One line for each code: the enum's case, the header's name without `NNEF_`, what it says.
macro_rules! codes {
    ($($case:ident $name:ident $text:literal)*) => {
        /// What an operation says of a text or of an order. The numbers are those of `include/nnef.h`. A later version may have more of
        /// them, so a `match` needs an arm for the others.
        #[derive(Clone, Copy, Debug, PartialEq, Eq, PartialOrd, Ord, Hash)]
        #[non_exhaustive]
        #[repr(u32)]
        pub enum Code {
            $(#[doc = $text] $case = raw::$name,)*
        }

        impl Code {
            /// Every code, by rising number.
            pub const ALL: &'static [Code] = &[$(Code::$case),*];

            /// The header's name without `NNEF_`.
            pub fn name(self) -> &'static str {
                match self {
                    $(Code::$case => stringify!($name),)*
                }
            }

            /// What the code says, in the words of the header: a sentence without a full stop.
            pub fn text(self) -> &'static str {
                match self {
                    $(Code::$case => $text,)*
                }
            }
        }
    };
}

codes! {
    Accepted ACCEPTED "accepted"
    LentTooShort LENT_TOO_SHORT "a lent table or work area has too few words"
    TextTooLong TEXT_TOO_LONG "the text has more than 16384 bytes"
    NoToken NO_TOKEN "this byte begins no token"
    NumberMisspelt NUMBER_MISSPELT "the number is misspelt"
    BadString BAD_STRING "the string is not closed, or holds a byte outside 32 to 126"
    TokenTooLong TOKEN_TOO_LONG "the name, string or number is too long"
    OutOfRange OUT_OF_RANGE "the number is out of range"
    TooManyTokens TOO_MANY_TOKENS "the text has more than 4096 tokens"
    Syntax SYNTAX "no valid text has this token, or ends, here"
    TooDeep TOO_DEEP "a ninth bracket is opened"
    Version VERSION "the version is not spelt 1.0"
    TooMany TOO_MANY "there are more of these than there may be"
    Repeated REPEATED "the name is repeated"
    BadDefault BAD_DEFAULT "the default does not fit its parameter's type"
    Undeclared UNDECLARED "the operation is not declared"
    Misplaced MISPLACED "a positional argument may not stand here"
    Misnamed MISNAMED "the list has no parameter of this name for the operation, or it is already bound"
    Misfit MISFIT "the argument does not fit its parameter's type"
    Missing MISSING "a parameter without default is not bound"
    Unmatched UNMATCHED "the left side does not match the operation's results"
    Again AGAIN "the identifier is assigned again"
    Unassigned UNASSIGNED "no earlier call assigns this identifier"
    Misfed MISFED "an input is not assigned by external, or another identifier is"
    Unmade UNMADE "the output is never assigned"
    CanonTooLong CANON_TOO_LONG "the canonical text has more than 16384 bytes or 4096 tokens"
    OutTooShort OUT_TOO_SHORT "the lent output is shorter than the canonical text"
    OrderLength ORDER_LENGTH "the order has more or fewer numbers than the graph has calls"
    NoCall NO_CALL "the graph has no call of this number"
    CallRepeated CALL_REPEATED "the call stands at an earlier place too"
    UseTooEarly USE_TOO_EARLY "the call uses an identifier whose assigning call stands at no earlier place"
}

impl Code {
    pub fn number(self) -> u32 {
        self as u32
    }

    /// The code with this number.
    pub fn from_number(number: u32) -> Option<Code> {
        Code::ALL.iter().copied().find(|code| code.number() == number)
    }

    /// Whether it is a fault of an order, whose position is a place in that order.
    pub fn is_of_order(self) -> bool {
        self >= Code::OrderLength
    }
}

impl fmt::Display for Code {
    fn fmt(&self, f: &mut fmt::Formatter) -> fmt::Result {
        f.write_str(self.name())
    }
}

#[cfg(test)]
mod tests {
    use super::Code;

    #[test]
    fn numbers_rise() {
        let numbers: Vec<u32> = Code::ALL.iter().map(|code| code.number()).collect();
        assert_eq!(numbers, (0..=26).chain(41..=44).collect::<Vec<u32>>());
        for code in Code::ALL {
            assert_eq!(Code::from_number(code.number()), Some(*code));
            assert_eq!(code.is_of_order(), code.number() > 26);
        }
        for number in [27, 40, 45, u32::MAX] {
            assert_eq!(Code::from_number(number), None);
        }
    }
}
