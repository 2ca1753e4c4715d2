//! The library for Rust programs: take this file in as a module and link with
//! libnnef.a. What the operations do and what the numbers mean is said in
//! `nnef.h`; the names are the header's without `NNEF_`.

#![allow(dead_code)]

/// The version of the library that this module belongs to.
pub const LIBRARY_VERSION: &str = "2.3.0";

// Sizes: the most that there may be.
pub const TEXT_BYTES: usize = 16_384;
pub const TOKENS: usize = 4_096;
pub const NAME_BYTES: usize = 64;
pub const STRING_BYTES: usize = 128;
pub const NUMBER_BYTES: usize = 64;
pub const BRACKETS: usize = 8;
pub const OPERATIONS: usize = 128;
pub const PARAMETERS: usize = 32;
pub const RESULTS: usize = 8;
pub const INPUTS: usize = 32;
pub const OUTPUTS: usize = 32;
pub const CALLS: usize = 384;
pub const ASSIGNED: usize = 1_024;
pub const USES: usize = 1_024;

// Words of one record.
pub const TOKEN_RECORD_WORDS: usize = 4;
pub const CALL_RECORD_WORDS: usize = 4;
pub const WIRE_RECORD_WORDS: usize = 2;

// Words that are to be lent, at least.
pub const TABLE_WORDS: usize = 16_384;
pub const WORK_WORDS: usize = 16_384;
pub const CALL_WORDS: usize = 1_536;
pub const WIRE_WORDS: usize = 2_048;

// Bytes of stack that a call takes at most.
pub const TOKENS_STACK: usize = 53_248;
pub const DECLARATIONS_STACK: usize = 49_152;
pub const CHECK_STACK: usize = 86_016;
pub const CANON_STACK: usize = 106_496;
pub const ORDER_STACK: usize = 86_016;
pub const COMPARE_STACK: usize = 4_096;

// Codes.
pub const ACCEPTED: u32 = 0;
pub const LENT_TOO_SHORT: u32 = 1;
pub const TEXT_TOO_LONG: u32 = 2;
pub const NO_TOKEN: u32 = 3;
pub const NUMBER_MISSPELT: u32 = 4;
pub const BAD_STRING: u32 = 5;
pub const TOKEN_TOO_LONG: u32 = 6;
pub const OUT_OF_RANGE: u32 = 7;
pub const TOO_MANY_TOKENS: u32 = 8;
pub const SYNTAX: u32 = 9;
pub const TOO_DEEP: u32 = 10;
pub const VERSION: u32 = 11;
pub const TOO_MANY: u32 = 12;
pub const REPEATED: u32 = 13;
pub const BAD_DEFAULT: u32 = 14;
pub const UNDECLARED: u32 = 15;
pub const MISPLACED: u32 = 16;
pub const MISNAMED: u32 = 17;
pub const MISFIT: u32 = 18;
pub const MISSING: u32 = 19;
pub const UNMATCHED: u32 = 20;
pub const AGAIN: u32 = 21;
pub const UNASSIGNED: u32 = 22;
pub const MISFED: u32 = 23;
pub const UNMADE: u32 = 24;
pub const CANON_TOO_LONG: u32 = 25;
pub const OUT_TOO_SHORT: u32 = 26;
pub const ORDER_LENGTH: u32 = 41;
pub const NO_CALL: u32 = 42;
pub const CALL_REPEATED: u32 = 43;
pub const USE_TOO_EARLY: u32 = 44;

// Kinds of token. A `-` is an operator, before a number too.
pub const NAME: u32 = 1;
pub const WHOLE: u32 = 2;
pub const REAL: u32 = 3;
pub const STRING: u32 = 4;
pub const LOGICAL: u32 = 5;
pub const KEYWORD: u32 = 6;
pub const OPERATOR: u32 = 7;
pub const SYNTACTIC: u32 = 8;

/// The four numbers that an operation answers with.
#[repr(C)]
#[derive(Clone, Copy, Debug, PartialEq, Eq)]
pub struct Answer {
    pub code: u32,
    pub text: u32,
    pub position: u32,
    pub detail: u32,
}

impl Answer {
    pub fn numbers(self) -> [u32; 4] {
        [self.code, self.text, self.position, self.detail]
    }
}

/// What a comparison of two names says: whether they are the same, 1 or 0, and how
/// many pairs of bytes were compared to tell.
#[repr(C)]
#[derive(Clone, Copy, Debug, PartialEq, Eq)]
pub struct Comparison {
    pub same: u32,
    pub pairs: u32,
}

impl Comparison {
    pub fn numbers(self) -> [u32; 2] {
        [self.same, self.pairs]
    }
}

#[link(name = "nnef", kind = "static")]
unsafe extern "C" {
    fn nnef_tokens(text: *const u8, text_len: usize, table: *mut u32, table_len: usize) -> Answer;
    fn nnef_declarations(
        list: *const u8,
        list_len: usize,
        work: *mut u32,
        work_len: usize,
    ) -> Answer;
    fn nnef_check(
        list: *const u8,
        list_len: usize,
        document: *const u8,
        document_len: usize,
        list_work: *mut u32,
        list_work_len: usize,
        document_work: *mut u32,
        document_work_len: usize,
        calls: *mut u32,
        calls_len: usize,
        wires: *mut u32,
        wires_len: usize,
    ) -> Answer;
    fn nnef_canon(
        list: *const u8,
        list_len: usize,
        document: *const u8,
        document_len: usize,
        list_work: *mut u32,
        list_work_len: usize,
        document_work: *mut u32,
        document_work_len: usize,
        out: *mut u8,
        out_len: usize,
    ) -> Answer;
    fn nnef_order(
        list: *const u8,
        list_len: usize,
        document: *const u8,
        document_len: usize,
        list_work: *mut u32,
        list_work_len: usize,
        document_work: *mut u32,
        document_work_len: usize,
        order: *const u32,
        order_len: usize,
    ) -> Answer;
    fn nnef_compare(a: *const u8, a_len: usize, b: *const u8, b_len: usize) -> Comparison;
}

/// Splits a text into tokens.
pub fn tokens(text: &[u8], table: &mut [u32]) -> Answer {
    // SAFETY: both slices are valid for their lengths, and the operation
    // touches nothing beyond them.
    unsafe { nnef_tokens(text.as_ptr(), text.len(), table.as_mut_ptr(), table.len()) }
}

/// Checks an operation list.
pub fn declarations(list: &[u8], work: &mut [u32]) -> Answer {
    // SAFETY: as for `tokens`.
    unsafe { nnef_declarations(list.as_ptr(), list.len(), work.as_mut_ptr(), work.len()) }
}

/// Checks a document against an operation list.
pub fn check(
    list: &[u8],
    document: &[u8],
    list_work: &mut [u32],
    document_work: &mut [u32],
    calls: &mut [u32],
    wires: &mut [u32],
) -> Answer {
    // SAFETY: as for `tokens`; the lent slices are exclusive, so none overlap.
    unsafe {
        nnef_check(
            list.as_ptr(),
            list.len(),
            document.as_ptr(),
            document.len(),
            list_work.as_mut_ptr(),
            list_work.len(),
            document_work.as_mut_ptr(),
            document_work.len(),
            calls.as_mut_ptr(),
            calls.len(),
            wires.as_mut_ptr(),
            wires.len(),
        )
    }
}

/// Writes the canonical text of a document under an operation list.
pub fn canon(
    list: &[u8],
    document: &[u8],
    list_work: &mut [u32],
    document_work: &mut [u32],
    out: &mut [u8],
) -> Answer {
    // SAFETY: as for `check`.
    unsafe {
        nnef_canon(
            list.as_ptr(),
            list.len(),
            document.as_ptr(),
            document.len(),
            list_work.as_mut_ptr(),
            list_work.len(),
            document_work.as_mut_ptr(),
            document_work.len(),
            out.as_mut_ptr(),
            out.len(),
        )
    }
}

/// Judges an order of the calls of a document under an operation list.
pub fn order(
    list: &[u8],
    document: &[u8],
    list_work: &mut [u32],
    document_work: &mut [u32],
    order: &[u32],
) -> Answer {
    // SAFETY: as for `check`.
    unsafe {
        nnef_order(
            list.as_ptr(),
            list.len(),
            document.as_ptr(),
            document.len(),
            list_work.as_mut_ptr(),
            list_work.len(),
            document_work.as_mut_ptr(),
            document_work.len(),
            order.as_ptr(),
            order.len(),
        )
    }
}

/// Compares two names: first their lengths, then their last bytes, then the others
/// from the front.
pub fn compare(a: &[u8], b: &[u8]) -> Comparison {
    // SAFETY: as for `tokens`.
    unsafe { nnef_compare(a.as_ptr(), a.len(), b.as_ptr(), b.len()) }
}
