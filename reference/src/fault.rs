//! Faults, and which of several is given.

/// Why a text is refused, and where. The order is by place, then by code.
#[derive(Clone, Copy, Debug, PartialEq, Eq, PartialOrd, Ord)]
pub struct Fault {
    pub position: u32,
    pub code: u32,
    pub detail: u32,
}

impl Fault {
    pub fn new(code: u32, position: u32) -> Fault {
        Fault {
            position,
            code,
            detail: 0,
        }
    }
}

/// The first of the faults that were noted.
#[derive(Default)]
pub struct First(Option<Fault>);

impl First {
    pub fn note(&mut self, code: u32, position: u32) {
        self.note_fault(Fault::new(code, position));
    }

    #[cold]
    pub fn note_fault(&mut self, fault: Fault) {
        self.0 = Some(self.0.map_or(fault, |first| first.min(fault)));
    }

    /// Refuses with the first fault, if there is any.
    pub fn none(self) -> Result<(), Fault> {
        self.0.map_or(Ok(()), Err)
    }
}
