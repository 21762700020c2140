//! Which of standard input and output were closed when the program was started. Before `main` Rust opens /dev/null in the place of a
//! closed one, and writing there would pass for written; so they are looked at before that.
use std::io::{Error, Result};
use std::sync::atomic::{AtomicBool, Ordering::Relaxed};

static CLOSED: [AtomicBool; 2] = [AtomicBool::new(false), AtomicBool::new(false)];

extern "C" {
    fn fcntl(descriptor: i32, command: i32, ...) -> i32;
}

/// Asks for the flags of each descriptor (F_GETFD, 1), which a closed one does not have.
extern "C" fn look() {
    for (descriptor, closed) in (0..).zip(&CLOSED) {
        closed.store(unsafe { fcntl(descriptor, 1) } == -1, Relaxed);
    }
}

#[used]
#[link_section = ".init_array"]
static LOOK: extern "C" fn() = look;

/// An error where the descriptor, 0 or 1, was closed.
pub fn open(descriptor: usize) -> Result<()> {
    if CLOSED[descriptor].load(Relaxed) {
        return Err(Error::from_raw_os_error(9));
    }
    Ok(())
}
