//! Standard output and standard error. What is said at once is handed over in one write, so that it is never split by us.
//! After a reader has gone away nothing more is said to it, and the command goes on to its end.
use crate::{start, BAD, DONE, REFUSED};
use reasons::Refusal;
use std::ffi::OsStr;
use std::fs::File;
use std::io::{stdout, ErrorKind, Result, Write};
use std::os::fd::AsFd;
use std::os::unix::ffi::OsStrExt;
use std::sync::atomic::{AtomicU8, Ordering::Relaxed};
use std::sync::OnceLock;

/// Standard output without the buffer that std has before it.
static OUT: OnceLock<File> = OnceLock::new();

/// How standard output is doing.
static STATE: AtomicU8 = AtomicU8::new(THERE);
const THERE: u8 = 0;
const GONE: u8 = 1;
const FAILED: u8 = 2;

pub fn text(text: &str) {
    bytes(text.as_bytes());
}

pub fn bytes(all: &[u8]) {
    if STATE.load(Relaxed) != THERE {
        return;
    }
    let Err(what) = written(all) else { return };
    if what.kind() == ErrorKind::BrokenPipe {
        STATE.store(GONE, Relaxed);
    } else {
        STATE.store(FAILED, Relaxed);
        error(&format!("standard output: {what}\n"));
    }
}

/// One write, and more only where the system took less.
fn written(all: &[u8]) -> Result<()> {
    start::open(1)?;
    if OUT.get().is_none() {
        let _ = OUT.set(File::from(stdout().as_fd().try_clone_to_owned()?));
    }
    OUT.get().map_or(Ok(()), |mut out| out.write_all(all))
}

/// A text under the name of its file, or alone.
pub fn titled(title: Option<&OsStr>, text: &str) {
    let mut all = Vec::with_capacity(text.len() + 64);
    if let Some(file) = title {
        all.extend_from_slice(file.as_bytes());
        all.extend_from_slice(b":\n");
    }
    all.extend_from_slice(text.as_bytes());
    bytes(&all);
}

/// The text of an answer, or the line of its refusal on standard error; the status that goes with it.
pub fn told(answer: std::result::Result<String, Refusal>) -> u8 {
    match answer {
        Ok(all) => {
            text(&all);
            DONE
        }
        Err(refusal) => {
            error(&format!("{refusal}\n"));
            REFUSED
        }
    }
}

pub fn error(text: &str) {
    let _ = std::io::stderr().write_all(text.as_bytes());
}

/// What is to be said of a file, after its name as it was given.
pub fn of_file(file: &OsStr, what: &str) {
    let mut all = file.as_bytes().to_vec();
    all.extend_from_slice(format!(": {what}\n").as_bytes());
    let _ = std::io::stderr().write_all(&all);
}

/// The status that the program ends with: bad where output could not be written.
pub fn ended(status: u8) -> u8 {
    match STATE.load(Relaxed) {
        FAILED => BAD,
        _ => status,
    }
}
