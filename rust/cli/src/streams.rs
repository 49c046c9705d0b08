//! What the system knows of the three standard streams.

use std::os::raw::c_int;
use std::sync::atomic::{AtomicU8, Ordering::Relaxed};

pub const INPUT: c_int = 0;
pub const OUTPUT: c_int = 1;
pub const ERROR: c_int = 2;

extern "C" {
    fn isatty(stream: c_int) -> c_int;
    #[cfg(target_os = "linux")]
    fn fcntl(stream: c_int, command: c_int, ...) -> c_int;
}

pub fn is_terminal(stream: c_int) -> bool {
    // Sound: any number may be asked.
    unsafe { isatty(stream) == 1 }
}

/// A bit for each stream that was closed at the start.
static CLOSED: AtomicU8 = AtomicU8::new(0);

/// Whether a stream was closed when the program began. Rust opens /dev/null in its place, where
/// a table would be read as empty and an answer would be lost, so this is asked before Rust starts.
pub fn was_closed(stream: c_int) -> bool {
    CLOSED.load(Relaxed) >> stream & 1 == 1
}

#[cfg(target_os = "linux")]
#[used]
#[link_section = ".init_array"]
static BEFORE_MAIN: extern "C" fn() = look;

#[cfg(target_os = "linux")]
extern "C" fn look() {
    const F_GETFD: c_int = 1;
    for stream in [INPUT, OUTPUT, ERROR] {
        // Sound: it only reads the flags of a descriptor, and tells if there is none.
        if unsafe { fcntl(stream, F_GETFD) } < 0 {
            CLOSED.fetch_or(1 << stream, Relaxed);
        }
    }
}
