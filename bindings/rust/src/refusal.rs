//! Why a text is refused.

use crate::codes::Code;
use crate::raw::Answer;
use std::error::Error;
use std::fmt;

/// The text that a fault stands in.
#[derive(Clone, Copy, Debug, PartialEq, Eq, Hash)]
#[repr(u32)]
pub enum Text {
    /// In none: there was too little room, or the fault is in an order.
    None = 0,
    /// In the operation list, or in the sole text.
    List = 1,
    /// In the document.
    Document = 2,
}

/// The first fault of a text, of two, or of an order.
#[derive(Clone, Copy, Debug, PartialEq, Eq, Hash)]
pub struct Refusal {
    /// What is wrong; never [`Code::Accepted`].
    pub code: Code,
    pub text: Text,
    /// The fault's place in that text, in bytes from 0. With [`Code::OrderLength`], [`Code::NoCall`], [`Code::CallRepeated`] and
    /// [`Code::UseTooEarly`] it is the place in the order, from 0.
    pub position: usize,
    /// With [`Code::Missing`] the parameter's index, with [`Code::OutTooShort`] the length of the canonical text, else 0.
    pub detail: usize,
}

impl Refusal {
    /// The four numbers of the answer.
    pub fn numbers(&self) -> [u32; 4] {
        [self.code.number(), self.text as u32, self.position as u32, self.detail as u32]
    }
}

impl fmt::Display for Refusal {
    fn fmt(&self, f: &mut fmt::Formatter) -> fmt::Result {
        let place = self.position;
        match self.text {
            Text::None if self.code.is_of_order() => write!(f, "{} (place {place} of the order)", self.code.text()),
            Text::None => write!(f, "{}", self.code.text()),
            Text::List => write!(f, "{} (byte {place} of the first text)", self.code.text()),
            Text::Document => write!(f, "{} (byte {place} of the document)", self.code.text()),
        }
    }
}

impl Error for Refusal {}

/// The count of an acceptance, or the refusal.
pub(crate) fn result(answer: Answer) -> Result<usize, Refusal> {
    let code = Code::from_number(answer.code).expect("the library answers with a code of its table");
    if code == Code::Accepted {
        return Ok(answer.detail as usize);
    }
    Err(Refusal {
        code,
        text: match answer.text {
            0 => Text::None,
            1 => Text::List,
            _ => Text::Document,
        },
        position: answer.position as usize,
        detail: answer.detail as usize,
    })
}
