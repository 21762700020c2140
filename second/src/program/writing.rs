//! Writing a case file.

use super::case_file::Fault;
use super::listing;
use super::store::Store;

/// The case file of a store: what is held, in order, each number in its
/// shortest form.
pub fn file_of(store: &Store) -> Vec<u8> {
    let mut bytes = Vec::new();
    put_number(&mut bytes, store.a);
    put_number(&mut bytes, store.m);
    put_number(&mut bytes, store.held_count() as u32);
    for rule in store.rules() {
        put_number(&mut bytes, rule.consequent);
        put_number(&mut bytes, rule.supports.len() as u32);
        rule.supports.iter().for_each(|&n| put_number(&mut bytes, n));
    }
    bytes
}

/// One byte below 128; else the low seven bits with 128 added, then the rest.
fn put_number(bytes: &mut Vec<u8>, n: u32) {
    if n < 128 {
        bytes.push(n as u8);
    } else {
        bytes.push((n % 128 + 128) as u8);
        bytes.push((n / 128) as u8);
    }
}

/// A case file in canonical form, or the refusal of loading it.
pub fn rewrite(input: &[u8]) -> Result<Vec<u8>, Fault> {
    listing::load(input).map(|store| file_of(&store))
}

/// Bytes as two lower-case hex digits each, one space between.
pub fn hex_text(bytes: &[u8]) -> String {
    let words: Vec<String> = bytes.iter().map(|byte| format!("{byte:02x}")).collect();
    words.join(" ") + "\n"
}
