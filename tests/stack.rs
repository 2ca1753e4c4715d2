//! The stack that each operation takes: it runs on a stack that is filled with
//! one byte, and the deepest byte that has changed is the deepest one touched.

use crate::library;
use crate::{canon, check, order, tokens, Total};
use nnef_random::{Lines, Rng, SORTS};
use std::ffi::c_void;
use std::ptr;

// What the bench says of its inputs is not read here.
#[allow(dead_code)]
#[path = "../bench/inputs.rs"]
mod inputs;

/// Random pairs that are run, beside those that are timed and those of written cases.
const RANDOM: u64 = 2_000;

/// A list and a document.
type Texts = (Vec<u8>, Vec<u8>);

/// Measures every operation and says how many take more than is stated of them.
pub fn run(seed: u64) -> Total {
    let pairs = pairs(seed);
    let mut stack = Stack::new();
    let mut room = Room::new();
    let kept = [
        tokens_keeps(&mut stack, &pairs),
        declarations_keeps(&mut stack, &mut room, &pairs),
        check_keeps(&mut stack, &mut room, &pairs),
        canon_keeps(&mut stack, &mut room, &pairs),
        order_keeps(&mut stack, &mut room, &pairs),
        compare_keeps(&mut stack, &pairs),
    ];
    Total {
        written: kept.len(),
        random: 0,
        wrong: kept.iter().filter(|keeps| !**keeps).count(),
    }
}

/// What `declarations`, `check`, `canon` and `order` are lent.
struct Room {
    work: [Vec<u32>; 2],
    calls: Vec<u32>,
    wires: Vec<u32>,
    out: Vec<u8>,
}

impl Room {
    fn new() -> Room {
        Room {
            work: [vec![0; library::WORK_WORDS], vec![0; library::WORK_WORDS]],
            calls: vec![0; library::CALL_WORDS],
            wires: vec![0; library::WIRE_WORDS],
            out: vec![0; library::TEXT_BYTES],
        }
    }

    fn check(&mut self, list: &[u8], document: &[u8]) -> library::Answer {
        let [list_work, document_work] = &mut self.work;
        let (calls, wires) = (&mut self.calls, &mut self.wires);
        library::check(list, document, list_work, document_work, calls, wires)
    }
}

fn tokens_keeps(stack: &mut Stack, pairs: &[Texts]) -> bool {
    let written = tokens::cases::CASES.iter().map(|case| case.text());
    let timed = inputs::texts().into_iter().map(|(_, text)| text);
    let more: Vec<Vec<u8>> = written.chain(timed).collect();
    let texts = pairs.iter().flat_map(|(list, document)| [list, document]);
    let mut table = vec![0; library::TABLE_WORDS];
    let taken = texts.chain(&more).map(|text| {
        stack.taken(|| {
            library::tokens(text, &mut table);
        })
    });
    keeps("tokens", taken.max(), library::TOKENS_STACK)
}

fn declarations_keeps(stack: &mut Stack, room: &mut Room, pairs: &[Texts]) -> bool {
    let taken = pairs.iter().map(|(list, _)| {
        stack.taken(|| {
            library::declarations(list, &mut room.work[0]);
        })
    });
    keeps("declarations", taken.max(), library::DECLARATIONS_STACK)
}

fn check_keeps(stack: &mut Stack, room: &mut Room, pairs: &[Texts]) -> bool {
    let taken = pairs.iter().map(|(list, document)| {
        stack.taken(|| {
            room.check(list, document);
        })
    });
    keeps("check", taken.max(), library::CHECK_STACK)
}

fn canon_keeps(stack: &mut Stack, room: &mut Room, pairs: &[Texts]) -> bool {
    let taken = pairs.iter().map(|(list, document)| {
        stack.taken(|| {
            let [list_work, document_work] = &mut room.work;
            library::canon(list, document, list_work, document_work, &mut room.out);
        })
    });
    keeps("canon", taken.max(), library::CANON_STACK)
}

/// The calls of an accepted document stand in a right order.
fn order_keeps(stack: &mut Stack, room: &mut Room, pairs: &[Texts]) -> bool {
    let taken = pairs.iter().map(|(list, document)| {
        let answer = room.check(list, document);
        let calls = if answer.code == 0 { answer.detail } else { 0 };
        let order: Vec<u32> = (0..calls).collect();
        stack.taken(|| {
            let [list_work, document_work] = &mut room.work;
            library::order(list, document, list_work, document_work, &order);
        })
    });
    keeps("order", taken.max(), library::ORDER_STACK)
}

/// The texts stand for long names: the same, cut short, and one against the other.
fn compare_keeps(stack: &mut Stack, pairs: &[Texts]) -> bool {
    let timed = inputs::names().into_iter().map(|(_, names)| names);
    let texts = pairs.iter().flat_map(|(list, document)| {
        let length = list.len().min(document.len());
        let name = |text: &[u8]| text[..length].to_vec();
        [
            [list.clone(), list.clone()],
            [list.clone(), document.clone()],
            [name(list), name(document)],
        ]
    });
    let taken = timed.chain(texts).map(|[a, b]| {
        stack.taken(|| {
            library::compare(&a, &b);
        })
    });
    keeps("compare", taken.max(), library::COMPARE_STACK)
}

/// Says what was measured, and whether it is within what is stated.
fn keeps(operation: &str, taken: Option<usize>, stated: usize) -> bool {
    let taken = taken.expect("there are inputs");
    println!("stack of {operation}: {taken} bytes, {stated} stated");
    taken <= stated
}

/// Lists and documents.
fn pairs(seed: u64) -> Vec<Texts> {
    let checked = check::cases::PAIRS.iter();
    let written = canon::cases::CASES.iter();
    let ordered = order::cases::CASES.iter();
    let random = (0..RANDOM).map(|case| {
        let mut rng = Rng::for_case(seed, case);
        let (_, make) = rng.pick(SORTS);
        let pair = make(&mut rng, Lines::Any);
        (pair.list, pair.document)
    });
    let inputs = inputs::inputs().into_iter();
    let timed = inputs.chain([inputs::colliding()]).map(|input| input.pair);
    checked
        .map(|case| (case.list.bytes(), case.document.bytes()))
        .chain(written.map(|case| (case.list.bytes(), case.document.bytes())))
        .chain(ordered.map(|case| (case.list.bytes(), case.document.bytes())))
        .chain(timed.map(|pair| (pair.list, pair.document)))
        .chain(NESTS.iter().map(|nest| deepest(*nest)))
        .chain(random)
        .collect()
}

/// What stands before and behind an item of a type, of a left side and of a value.
type Nest = [(&'static str, &'static str); 3];

const NESTS: &[Nest] = &[
    [("", "[]"), ("[", "]"), ("[", "]")],
    [("(", ",tensor)"), ("(", ",b%)"), ("(", ",0)")],
    [("(tensor,", ")"), ("(b%,", ")"), ("(0,", ")")],
];

/// Eight nests in a parameter's type, its default, a result, an argument and a left side.
fn deepest([ty, left, value]: Nest) -> Texts {
    let [ty, left] = [nested(ty, "tensor"), nested(left, "b")];
    let [default, argument] = [nested(value, "0"), nested(value, "a")];
    let external = "fragment external(shape: extent[]) -> (y: tensor)";
    let list = format!("{external} fragment f(x: {ty}, y: {ty} = {default}) -> (z: {ty})");
    let head = "version 1.0 graph g(a) -> (b) { a = external(shape = [1]);";
    let document = format!("{head} {left} = f({argument}); }}");
    (list.into_bytes(), document.into_bytes())
}

/// An item in eight nests; `%` stands for the number of the nest.
fn nested((before, behind): (&str, &str), item: &str) -> String {
    (0..8).fold(item.to_string(), |item, n| {
        format!("{before}{item}{behind}").replace('%', &n.to_string())
    })
}

/// What the stack holds where nothing was written.
const UNTOUCHED: u8 = 0xA5;

/// Pages of the stack: far more than any operation takes.
const PAGES: usize = 128;

#[derive(Clone, Copy)]
#[repr(C, align(4096))]
struct Page([u8; 4096]);

struct Stack {
    pages: Vec<Page>,
}

/// What is run on the stack, and the place where its caller stands.
struct Run<'a> {
    run: &'a mut dyn FnMut(),
    caller: usize,
}

impl Stack {
    fn new() -> Stack {
        Stack {
            pages: vec![Page([UNTOUCHED; 4096]); PAGES],
        }
    }

    /// The bytes of stack that this takes.
    fn taken(&mut self, mut run: impl FnMut()) -> usize {
        self.pages.fill(Page([UNTOUCHED; 4096]));
        let mut run = Run {
            run: &mut run,
            caller: 0,
        };
        let mut attributes = Attributes([0; 64]);
        let mut thread = 0;
        // SAFETY: the thread has ended before the pages, the attributes and what is run are used again.
        unsafe {
            let stack = self.pages.as_mut_ptr().cast();
            done(pthread_attr_init(&mut attributes));
            done(pthread_attr_setstack(&mut attributes, stack, PAGES * 4096));
            let argument = ptr::from_mut(&mut run).cast();
            done(pthread_create(&mut thread, &attributes, start, argument));
            done(pthread_join(thread, ptr::null_mut()));
        }
        let mut bytes = self.pages.iter().flat_map(|page| &page.0);
        let untouched = bytes.position(|byte| *byte != UNTOUCHED);
        run.caller - (self.pages.as_ptr() as usize + untouched.expect("the stack was used"))
    }
}

extern "C" fn start(argument: *mut c_void) -> *mut c_void {
    // SAFETY: `taken` hands over its own `Run`, and waits.
    let run = unsafe { &mut *argument.cast::<Run>() };
    let here = 0u8;
    run.caller = ptr::from_ref(&here) as usize;
    (run.run)();
    ptr::null_mut()
}

fn done(status: i32) {
    assert_eq!(status, 0, "a thread on a stack of its own");
}

/// As long as the system's `pthread_attr_t`, or longer.
#[repr(C, align(8))]
struct Attributes([u8; 64]);

unsafe extern "C" {
    fn pthread_attr_init(attributes: *mut Attributes) -> i32;
    fn pthread_attr_setstack(attributes: *mut Attributes, stack: *mut c_void, size: usize) -> i32;
    fn pthread_create(
        thread: *mut usize,
        attributes: *const Attributes,
        start: extern "C" fn(*mut c_void) -> *mut c_void,
        argument: *mut c_void,
    ) -> i32;
    fn pthread_join(thread: usize, value: *mut *mut c_void) -> i32;
}
