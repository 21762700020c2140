//! The listing program, and the text of lines and sets.

use super::case_file;
use super::rule::{Refusal, Set};
use super::store::Store;

/// Input longer than this is refused with 14.
pub const MOST_BYTES: usize = 4096;

/// What the listing program printed, with the reply number behind it (0 where
/// the case was listed), the stage that decided, and of a case that was listed
/// the depth, the count of different consequents and the kinds of its lines.
pub struct Listed {
    pub text: Vec<u8>,
    pub number: u32,
    pub stage: u32,
    pub depth: u32,
    pub consequents: u32,
    pub kinds: Vec<&'static str>,
}

/// The listing program as a function.
pub fn list(input: &[u8]) -> Listed {
    match load(input) {
        Ok(store) => {
            let text = listing(&store).into_bytes();
            let (depth, consequents) = (store.depth(), store.consequent_count() as u32);
            Listed { text, number: 0, stage: 0, depth, consequents, kinds: line_kinds(&store) }
        }
        Err(fault) => {
            let Refusal { number, stage, .. } = fault.refusal;
            let text = refusal_line(&fault);
            Listed { text: text.into_bytes(), number, stage, depth: 0, consequents: 0, kinds: vec![] }
        }
    }
}

/// The line of a refused file.
pub fn refusal_line(fault: &case_file::Fault) -> String {
    format!("refused {} {}\n", fault.refusal.number, fault.record)
}

/// Loading with the program's own limit on the input's length before all else.
pub fn load(input: &[u8]) -> Result<Store, case_file::Fault> {
    if input.len() > MOST_BYTES {
        return Err(case_file::Fault { refusal: Refusal::plain(14), record: 0 });
    }
    case_file::load(input)
}

/// The whole listing of a store.
pub fn listing(store: &Store) -> String {
    let mut text =
        format!("case {} {} {} {}\n", store.a, store.m, store.held_count(), store.depth());
    for n in 0..=store.last() {
        text.push_str(&line(store, n));
    }
    text
}

/// The kinds of line that a listing has, each once.
fn line_kinds(store: &Store) -> Vec<&'static str> {
    let at_depth = store.from_all_at_depth();
    let mut kinds: Vec<&'static str> =
        (0..=store.last()).map(|n| kind_of_line(store, n, &at_depth)).collect();
    kinds.sort();
    kinds.dedup();
    kinds
}

/// The kind of a number's line.
pub fn line_kind(store: &Store, n: u32) -> &'static str {
    kind_of_line(store, n, &store.from_all_at_depth())
}

fn kind_of_line(store: &Store, n: u32, at_depth: &[bool]) -> &'static str {
    match n {
        0 => "line of nogoods",
        _ if store.is_contradicted(n) && n <= store.a => "line of a contradicted assumption",
        _ if store.is_contradicted(n) && !at_depth[n as usize] => "line contradicted only above the depth",
        _ if store.is_contradicted(n) => "line contradicted",
        _ if store.list(n).is_empty() => "line unsupported",
        _ => "line supported",
    }
}

/// The line of a number in range, its newline included.
pub fn line(store: &Store, n: u32) -> String {
    let list = store.list(n);
    let word = match n {
        0 => "nogood",
        _ if store.is_contradicted(n) => "contradicted",
        _ if list.is_empty() => "unsupported",
        _ => "supported",
    };
    let mut text = format!("{n} {word}");
    for &set in list {
        text.push(' ');
        text.push_str(&set_text(set));
    }
    text.push('\n');
    text
}

/// A set as the listing prints it, such as {1,3}.
pub fn set_text(set: Set) -> String {
    let numbers = (1..=32).filter(|k| set >> (k - 1) & 1 == 1);
    let words: Vec<String> = numbers.map(|k: u32| k.to_string()).collect();
    format!("{{{}}}", words.join(","))
}
