//! Whether standard input and output were open when the program began.
//!
//! Rust's runtime opens /dev/null in the place of a closed one before `main`, so that writing to it would seem to succeed. The check
//! below runs earlier, from the list of functions that the system calls at the start.

use std::sync::atomic::{AtomicBool, Ordering};

static INPUT_CLOSED: AtomicBool = AtomicBool::new(false);
static OUTPUT_CLOSED: AtomicBool = AtomicBool::new(false);

/// What the system says of a closed file.
pub const BAD_DESCRIPTOR: i32 = 9;

const GET_FLAGS: i32 = 1;

extern "C" {
    fn fcntl(descriptor: i32, command: i32, ...) -> i32;
}

#[used]
#[link_section = ".init_array"]
static AT_START: extern "C" fn() = note_closed;

extern "C" fn note_closed() {
    for (descriptor, closed) in [(0, &INPUT_CLOSED), (1, &OUTPUT_CLOSED)] {
        // SAFETY: asking for a descriptor's flags changes nothing and takes no pointer.
        let flags = unsafe { fcntl(descriptor, GET_FLAGS) };
        closed.store(flags < 0, Ordering::Relaxed);
    }
}

pub fn input_was_closed() -> bool {
    INPUT_CLOSED.load(Ordering::Relaxed)
}

pub fn output_was_closed() -> bool {
    OUTPUT_CLOSED.load(Ordering::Relaxed)
}
