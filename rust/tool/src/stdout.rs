//! Whether standard output was closed when the program was started.
//!
//! Rust's runtime puts `/dev/null` in the place of a standard stream that is closed, so that what is printed would vanish without a
//! word. This looks before the runtime does.

use std::ffi::c_int;
use std::sync::atomic::{AtomicBool, Ordering};

static CLOSED: AtomicBool = AtomicBool::new(false);

pub fn was_closed() -> bool {
    CLOSED.load(Ordering::Relaxed)
}

extern "C" {
    fn fcntl(descriptor: c_int, command: c_int, ...) -> c_int;
}

const F_GETFD: c_int = 1;

extern "C" fn look() {
    // SAFETY: the command only asks for the flags of a descriptor, and takes no further argument.
    let answer = unsafe { fcntl(1, F_GETFD) };
    CLOSED.store(answer == -1, Ordering::Relaxed);
}

// SAFETY: functions of this section are called once, before `main`; this one needs nothing of the runtime.
#[used]
#[link_section = ".init_array"]
static LOOK: extern "C" fn() = look;
