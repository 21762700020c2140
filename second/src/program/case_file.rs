//! Reading a case file.

use super::rule::{Refusal, Rule, MOST_HELD};
use super::store::{check_counts, check_numbers, check_support_count, Store};
use std::collections::BTreeSet;

/// A refused load: why, and at which record (0 is the header).
#[derive(Clone, Copy, Debug, PartialEq, Eq)]
pub struct Fault {
    pub refusal: Refusal,
    pub record: u32,
}

fn at_record(record: u32) -> impl Fn(Refusal) -> Fault {
    move |refusal| Fault { refusal, record }
}

/// The store of a case file. The first fault decides.
pub fn load(bytes: &[u8]) -> Result<Store, Fault> {
    let mut file = File { bytes, place: 0 };
    let (a, m, count) = header(&mut file).map_err(at_record(0))?;
    let mut held = BTreeSet::new();
    for record in 1..=count {
        held.insert(one_record(&mut file, a + m).map_err(at_record(record))?);
    }
    if file.place < bytes.len() {
        return Err(at_record(count)(Refusal::plain(13)));
    }
    Store::of_rules(a, m, held).map_err(at_record(count))
}

/// A, M and the count of records, all three read before they are judged.
fn header(file: &mut File) -> Result<(u32, u32, u32), Refusal> {
    let a = file.number()?;
    let m = file.number()?;
    let count = file.number()?;
    check_counts(a, m)?;
    if count > MOST_HELD as u32 {
        return Err(Refusal::plain(7));
    }
    Ok((a, m, count))
}

fn one_record(file: &mut File, last: u32) -> Result<Rule, Refusal> {
    let consequent = file.number()?;
    let count = file.number()?;
    check_support_count(count)?;
    let mut supports = Vec::new();
    for _ in 0..count {
        supports.push(file.number()?);
    }
    check_numbers(last, consequent, &supports)?;
    Ok(Rule::new(consequent, &supports))
}

struct File<'a> {
    bytes: &'a [u8],
    place: usize,
}

impl File<'_> {
    fn byte(&mut self) -> Result<u32, Refusal> {
        let byte = *self.bytes.get(self.place).ok_or(Refusal::plain(11))?;
        self.place += 1;
        Ok(u32::from(byte))
    }

    /// One byte below 128, or a byte b from 128 on and a byte c from 1 to 127.
    fn number(&mut self) -> Result<u32, Refusal> {
        let b = self.byte()?;
        if b < 128 {
            return Ok(b);
        }
        match self.byte()? {
            c @ 1..=127 => Ok(b - 128 + 128 * c),
            _ => Err(Refusal::plain(12)),
        }
    }
}
