//! Running the programs, and the inputs as jobs for the workers.

use crate::scripts::{Bare, Group};
use std::io::{Read, Write};
use std::process::{Command, Stdio};
use std::sync::mpsc;
use std::time::Duration;

/// Which of the programs an input is for.
#[derive(Clone, Copy, Debug, PartialEq, Eq)]
pub enum Program {
    List,
    Replay,
    Rewrite,
}

impl Program {
    /// The word that asks the second program for it.
    pub fn word(self) -> &'static str {
        match self {
            Program::List => "list",
            Program::Replay => "replay",
            Program::Rewrite => "rewrite",
        }
    }
}

/// What a program printed on standard output and on standard error, as one.
pub fn both(output: &[u8], errors: &[u8]) -> Vec<u8> {
    [output, b"\nstandard error:\n", errors].concat()
}

/// One input: what kind it is, the reply if it is known beforehand, and of a
/// script its group and its bare calls.
pub struct Job {
    pub kind: &'static str,
    pub program: Program,
    pub input: Vec<u8>,
    pub expected: Option<Vec<u8>>,
    pub group: Option<Group>,
    pub bare: Option<Bare>,
}

/// No call of the product takes so long.
const PATIENCE: Duration = Duration::from_secs(60);

/// Run a program on an input and hand back all it printed; of rewriting also
/// what it printed on standard error.
pub fn run(program: &str, words: &[&str], input: &[u8], job: Program) -> Result<Vec<u8>, String> {
    let rewriting = job == Program::Rewrite;
    let mut child = Command::new(program)
        .args(words)
        .stdin(Stdio::piped())
        .stdout(Stdio::piped())
        .stderr(if rewriting { Stdio::piped() } else { Stdio::null() })
        .spawn()
        .map_err(|error| format!("{program} does not start: {error}"))?;
    let mut stdin = child.stdin.take().expect("a pipe to the program");
    let mut stdout = child.stdout.take().expect("a pipe from the program");
    let mut stderr = child.stderr.take();
    let input = input.to_vec();
    // It may stop reading early, as with input that is too long: no matter.
    std::thread::spawn(move || drop(stdin.write_all(&input)));
    let (send, receive) = mpsc::channel();
    std::thread::spawn(move || {
        let mut output = Vec::new();
        let mut read = stdout.read_to_end(&mut output);
        if let Some(stderr) = &mut stderr {
            // It prints one line at most there, so that it never waits for us.
            let mut errors = Vec::new();
            read = read.and(stderr.read_to_end(&mut errors));
            output = both(&output, &errors);
        }
        drop(send.send(read.map(|_| output)));
    });
    let output = receive.recv_timeout(PATIENCE);
    if output.is_err() {
        drop(child.kill());
    }
    let status = child.wait().map_err(|error| error.to_string())?;
    match output {
        Err(_) => Err(format!("no answer after {} seconds", PATIENCE.as_secs())),
        Ok(Err(error)) => Err(error.to_string()),
        Ok(Ok(_)) if status.code().is_none() => Err(format!("it was ended: {status}")),
        Ok(Ok(output)) => Ok(output),
    }
}
