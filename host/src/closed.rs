//! Whether standard output was closed when the process began. Rust's start-up puts /dev/null in its place, so this is asked
//! before that, by a function that the linker lists among those to run first.

use std::sync::atomic::{AtomicBool, Ordering};

static CLOSED: AtomicBool = AtomicBool::new(false);

const OUTPUT: i32 = 1;
const GET_FLAGS: i32 = 1;

extern "C" {
    fn fcntl(file: i32, command: i32, ...) -> i32;
}

extern "C" fn look() {
    // SAFETY: asking for the flags of a descriptor changes nothing, whether it is open or not.
    CLOSED.store(unsafe { fcntl(OUTPUT, GET_FLAGS) } < 0, Ordering::Relaxed);
}

#[used]
#[link_section = ".init_array"]
static FIRST: extern "C" fn() = look;

pub fn output_was_closed() -> bool {
    CLOSED.load(Ordering::Relaxed)
}
