//! A second, independent program for the same rules: for comparing only.
//!
//!   second list      a case file on standard input, its listing on standard output
//!   second replay    a script on standard input, the replies on standard output
//!   second rewrite   a case file on standard input, the same in canonical form on
//!                    standard output, or the refusal's line on standard error
//!   second selftest  the two ways of finding the stages, one against the other
//!
//! Build: rustc -O --edition 2021 -o second src/main.rs

// Some of what is kept beside the text is there for other callers.
#[allow(dead_code)]
mod program;

use program::{listing, script, selftest, writing};
use std::io::{Read, Write};

fn main() {
    let words: Vec<String> = std::env::args().skip(1).collect();
    match words.first().map(String::as_str) {
        // One byte more than the limit is read, so that "too many" shows.
        Some("list") => tell(&listing::list(&input(listing::MOST_BYTES + 1)).text),
        Some("replay") => tell(&script::text_of(&script::replay(&input(script::MOST_BYTES + 1)))),
        Some("rewrite") => match writing::rewrite(&input(listing::MOST_BYTES + 1)) {
            Ok(bytes) => tell(&bytes),
            Err(fault) => eprint!("{}", listing::refusal_line(&fault)),
        },
        Some("selftest") => {
            let seed = words.get(1).and_then(|word| word.parse().ok()).unwrap_or(1);
            std::process::exit(if selftest::run(seed) { 0 } else { 1 });
        }
        _ => {
            eprintln!("use: second list | replay | rewrite | selftest [SEED]");
            std::process::exit(2);
        }
    }
}

/// Standard input, but no more than `most` bytes of it.
fn input(most: usize) -> Vec<u8> {
    let mut bytes = Vec::new();
    std::io::stdin().take(most as u64).read_to_end(&mut bytes).expect("standard input");
    bytes
}

fn tell(text: &[u8]) {
    std::io::stdout().write_all(text).expect("standard output");
}
