//! reasons: list, check, explain, draw and rewrite case files.
//! Exit status 0: done. 1: refused, the refusal's line on standard error. 2: bad usage, or what cannot be read or written.
mod case;
mod draw;
mod given;
mod names;
mod say;
mod start;
mod why;

use given::Given;
use reasons::{Fault, Refusal, Store, LONGEST_FILE};
use std::io::Read;
use std::process::ExitCode;

/// How a command went; of several the highest counts.
pub const DONE: u8 = 0;
pub const REFUSED: u8 = 1;
pub const BAD: u8 = 2;

struct Command {
    name: &'static str,
    options: &'static [&'static str],
    usage: &'static str,
    help: &'static str,
    run: fn(&Given) -> u8,
}

const COMMANDS: [Command; 5] = [
    Command {
        name: "list",
        options: &["--names", "--title"],
        usage: "reasons list [--names NAMES] [--title] FILE..",
        help: "The listing of each case file: the nogoods, and of each number the smallest groups of assumptions that carry it.\n\
               More than one file, or --title: each under its name; a file that is refused is passed over.\n",
        run: list,
    },
    Command {
        name: "check",
        options: &[],
        usage: "reasons check FILE..",
        help: "Whether each case file loads: the exit status says so. Nothing is printed of one file; of several, the line of each refusal.\n",
        run: check,
    },
    Command {
        name: "why",
        options: &["--names", "--none"],
        usage: "reasons why [--names NAMES] FILE N [K.. | --none]",
        help: "What the set of the assumptions K.. is to the number N, the group that makes it so, and stage by stage how it follows from that group.\n\
               --none: the same of the empty set. Without either: the line of N, and the same of each group in it; of a number without one,\n\
               whether all assumptions together contradict themselves, and what follows from them.\n",
        run: why::why,
    },
    Command {
        name: "draw",
        options: &["--names"],
        usage: "reasons draw [--names NAMES] FILE [N]",
        help: "Graphviz text of the justifications that the label of N rests on, each group's in a frame of its own where there are several;\n\
               without N, of all that are held.\n\
               Boxes are assumptions, ellipses claims, the octagon is falsity. Try: reasons draw FILE | dot -Tsvg\n",
        run: draw::draw,
    },
    Command {
        name: "rewrite",
        options: &[],
        usage: "reasons rewrite FILE",
        help: "The case file of what FILE holds, on standard output: each justification once, in order, each number in its shortest form.\n",
        run: rewrite,
    },
];

const COMMON: &str = "FILE is a case file, - standard input. NAMES is a text file of at most 64 KiB with lines `NUMBER NAME`.\n\
                      Exit status: 0 done, 1 refused, 2 bad usage, or what cannot be read or written.\n";

fn main() -> ExitCode {
    let words: Vec<_> = std::env::args_os().skip(1).collect();
    ExitCode::from(say::ended(run(&words)))
}

fn run(words: &[std::ffi::OsString]) -> u8 {
    let first = words.first().and_then(|w| w.to_str()).unwrap_or("");
    if matches!(first, "--help" | "-h" | "help") {
        say::text(&overview());
        return DONE;
    }
    let Some(command) = COMMANDS.iter().find(|c| c.name == first) else {
        let what = words.first().map(|w| format!("reasons: no command {}\n", w.to_string_lossy())).unwrap_or_default();
        say::error(&format!("{what}{}", overview()));
        return BAD;
    };
    match Given::of(&words[1..], command.options) {
        Ok(given) if given.help => {
            say::text(&format!("usage: {}\n{}{COMMON}", command.usage, command.help));
            DONE
        }
        Ok(given) => (command.run)(&given),
        Err(what) => usage(command.name, &what),
    }
}

fn overview() -> String {
    let lines: String = COMMANDS.iter().map(|c| format!("  {}\n", c.usage)).collect();
    format!("usage:\n{lines}  reasons COMMAND --help\n{COMMON}")
}

/// A command that was not given what it takes.
pub fn usage(name: &str, what: &str) -> u8 {
    let line = COMMANDS.iter().find(|c| c.name == name).map_or("", |c| c.usage);
    say::error(&format!("reasons {name}: {what}\nusage: {line}\n"));
    BAD
}

/// The bytes of a file, one more than a case file may have at most.
fn bytes_of(file: &std::ffi::OsStr) -> std::io::Result<Vec<u8>> {
    let mut bytes = Vec::new();
    let most = LONGEST_FILE as u64 + 1;
    if file == "-" {
        start::open(0)?;
        std::io::stdin().take(most).read_to_end(&mut bytes)?;
    } else {
        std::fs::File::open(file)?.take(most).read_to_end(&mut bytes)?;
    }
    Ok(bytes)
}

/// The store of a file; 14, which programs give, comes before all other refusals.
fn loaded(bytes: &[u8]) -> Result<Store, Fault> {
    if LONGEST_FILE < bytes.len() {
        return Err(Fault {
            refusal: Refusal::Long,
            record: 0,
        });
    }
    Store::load(bytes)
}

/// The store of a file; what is refused or cannot be read is said, with the name of the file where `under` asks for it.
pub fn store_of(file: &std::ffi::OsStr, under: bool) -> Result<Store, u8> {
    let bytes = bytes_of(file).map_err(|error| {
        say::of_file(file, &error.to_string());
        BAD
    })?;
    loaded(&bytes).map_err(|fault| {
        match under {
            true => say::of_file(file, &fault.to_string()),
            false => say::error(&format!("{fault}\n")),
        }
        REFUSED
    })
}

fn list(given: &Given) -> u8 {
    if given.words.is_empty() {
        return usage("list", "no file");
    }
    let Ok(names) = names::Names::of(given.names.as_deref()) else {
        return BAD;
    };
    let under = given.title || given.words.len() > 1;
    let mut status = DONE;
    for file in &given.words {
        match store_of(file, under) {
            Ok(store) => {
                let listing = store.listing().expect("a loaded store has the right shape");
                say::titled(under.then_some(file), &names.in_listing(&listing));
            }
            Err(other) => status = status.max(other),
        }
    }
    status
}

fn check(given: &Given) -> u8 {
    if given.words.is_empty() {
        return usage("check", "no file");
    }
    let under = given.words.len() > 1;
    let mut status = DONE;
    for file in &given.words {
        match bytes_of(file).map(|bytes| loaded(&bytes)) {
            Ok(Ok(_)) => {}
            Ok(Err(fault)) => {
                if under {
                    say::of_file(file, &fault.to_string());
                }
                status = status.max(REFUSED);
            }
            Err(error) => {
                say::of_file(file, &error.to_string());
                status = status.max(BAD);
            }
        }
    }
    status
}

fn rewrite(given: &Given) -> u8 {
    let [file] = &given.words[..] else {
        return usage("rewrite", "one file");
    };
    match store_of(file, false) {
        Ok(store) => {
            say::bytes(&store.case_file().expect("a loaded store has the right shape"));
            DONE
        }
        Err(status) => status,
    }
}
