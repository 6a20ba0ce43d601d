//! Whether standard input and output were closed when the program started.
//!
//! Rust opens /dev/null in the place of a closed one before `main`, and what is
//! written there is lost without a word. So they are looked at before that: a
//! function that `.init_array` names is run by the loader first. It asks for
//! metadata and sets two flags, which needs nothing that Rust would have set up.

use std::{
    fs,
    sync::atomic::{AtomicBool, Ordering},
};

static INPUT: AtomicBool = AtomicBool::new(false);
static OUTPUT: AtomicBool = AtomicBool::new(false);

/// Whether standard input was closed.
pub fn input() -> bool {
    INPUT.load(Ordering::Relaxed)
}

/// Whether standard output was closed.
pub fn output() -> bool {
    OUTPUT.load(Ordering::Relaxed)
}

#[cfg(target_os = "linux")]
#[used]
#[allow(unsafe_code)] // which naming a section counts as
#[link_section = ".init_array"]
static LOOK: extern "C" fn() = look;

#[cfg(target_os = "linux")]
extern "C" fn look() {
    // Without /proc nothing is known, and neither is taken for closed.
    let is_closed =
        |name| fs::metadata("/proc/self/fd").is_ok() && fs::symlink_metadata(name).is_err();
    INPUT.store(is_closed("/proc/self/fd/0"), Ordering::Relaxed);
    OUTPUT.store(is_closed("/proc/self/fd/1"), Ordering::Relaxed);
}
