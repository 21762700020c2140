//! The store and its calls.

use super::following::{at_stage_zero, from_all, next_stage, Follows};
use super::plain::Plain;
use super::rule::{inside, single, Refusal, Rule, Set};
use super::rule::{MOST_ASSUMPTIONS, MOST_CLAIMS, MOST_HELD, MOST_SUPPORTS};
use super::stages::{judge, Judged};
use std::collections::BTreeSet;

pub struct Store {
    pub a: u32,
    pub m: u32,
    held: BTreeSet<Rule>,
    judged: Judged,
    /// At place n: does n follow from all assumptions together?
    from_all: Follows,
}

/// A justification as it is handed over: consequent and supports.
pub type Item = (u32, Vec<u32>);

/// A justification was taken in, or was there already.
#[derive(Clone, Copy, Debug, PartialEq, Eq)]
pub enum Added {
    Done,
    AlreadyHeld,
}

/// An answer and its reason: the first member of the label, or the first
/// nogood, that lies within the set asked.
#[derive(Clone, Copy, Debug, PartialEq, Eq)]
pub enum Answer {
    Supported(Set),
    Unsupported,
    Inconsistent(Set),
}

impl Store {
    pub fn open(a: u32, m: u32) -> Result<Store, Refusal> {
        check_counts(a, m)?;
        Store::of_rules(a, m, BTreeSet::new())
    }

    /// The store of a whole set of justifications, judged once. Counts and
    /// justifications have been checked before.
    pub fn of_rules(a: u32, m: u32, held: BTreeSet<Rule>) -> Result<Store, Refusal> {
        let rules: Vec<&Rule> = held.iter().collect();
        let judged = judge(a, m, &rules)?;
        let from_all = from_all(a, m, &rules);
        Ok(Store { a, m, held, judged, from_all })
    }

    /// Refusals in this order: 6, 4, 5, 17; 1; 7; then the stages.
    pub fn add(&mut self, consequent: u32, supports: &[u32]) -> Result<Added, Refusal> {
        check_support_count(supports.len() as u32)?;
        check_numbers(self.last(), consequent, supports)?;
        let rule = Rule::new(consequent, supports);
        if self.held.contains(&rule) {
            return Ok(Added::AlreadyHeld);
        }
        if self.held.len() >= MOST_HELD {
            return Err(Refusal::plain(7));
        }
        let mut enlarged = self.held.clone();
        enlarged.insert(rule);
        *self = Store::of_rules(self.a, self.m, enlarged)?;
        Ok(Added::Done)
    }

    /// Add the items one by one in their order, refused ones passed over; the
    /// reply number of each.
    pub fn season(&mut self, items: &[Item]) -> Vec<u32> {
        let mut numbers = Vec::new();
        for (consequent, supports) in items {
            numbers.push(match self.add(*consequent, supports) {
                Ok(Added::Done) => 0,
                Ok(Added::AlreadyHeld) => 1,
                Err(refusal) => refusal.number,
            });
        }
        numbers
    }

    /// Refusals in this order: 6, 4, 5, 17; 18; then the stages of the smaller set.
    pub fn withdraw(&mut self, consequent: u32, supports: &[u32]) -> Result<(), Refusal> {
        check_support_count(supports.len() as u32)?;
        check_numbers(self.last(), consequent, supports)?;
        let mut smaller = self.held.clone();
        refuse_if(!smaller.remove(&Rule::new(consequent, supports)), 18)?;
        *self = Store::of_rules(self.a, self.m, smaller)?;
        Ok(())
    }

    pub fn ask(&self, n: u32, assumptions: &[u32]) -> Result<Answer, Refusal> {
        self.check_number(n)?;
        Ok(self.answer(n, self.set_of(assumptions)?))
    }

    /// The value of each number from 0 to A+M.
    pub fn context(&self, assumptions: &[u32]) -> Result<Vec<u8>, Refusal> {
        let set = self.set_of(assumptions)?;
        let value = |n| match self.answer(n, set) {
            Answer::Inconsistent(_) => 2,
            Answer::Supported(_) => 1,
            Answer::Unsupported if self.is_contradicted(n) => 3,
            Answer::Unsupported => 0,
        };
        Ok((0..=self.last()).map(value).collect())
    }

    pub fn member(&self, n: u32, place: u32) -> Result<Set, Refusal> {
        self.check_number(n)?;
        self.list(n).get(place as usize).copied().ok_or(Refusal::plain(16))
    }

    /// The nogoods for 0, else the label of n. The number is in range.
    pub fn list(&self, n: u32) -> &[Set] {
        &self.judged.lists[n as usize]
    }

    /// Does the number, in range, have an empty label and yet follow from all
    /// assumptions together?
    pub fn is_contradicted(&self, n: u32) -> bool {
        n != 0 && self.list(n).is_empty() && self.from_all[n as usize]
    }

    /// What follows from all assumptions together at the stage of the depth.
    pub fn from_all_at_depth(&self) -> Follows {
        let all = (1..=self.a).fold(0, |set, k| set | single(k));
        let mut follows = at_stage_zero(self.a, self.m, all);
        for _ in 0..self.depth() {
            follows = next_stage(self.held.iter(), &follows);
        }
        follows
    }

    /// The justifications held, to be followed with no labels.
    pub fn plain(&self) -> Plain {
        Plain::of_rules(self.a, self.m, self.held.iter().cloned().collect())
    }

    /// The highest number: A+M.
    pub fn last(&self) -> u32 {
        self.a + self.m
    }

    /// The justifications held, in their order.
    pub fn rules(&self) -> impl Iterator<Item = &Rule> {
        self.held.iter()
    }

    pub fn held_count(&self) -> usize {
        self.held.len()
    }

    /// How many different consequents the held justifications have.
    pub fn consequent_count(&self) -> usize {
        self.held.iter().map(|rule| rule.consequent).collect::<BTreeSet<u32>>().len()
    }

    pub fn depth(&self) -> u32 {
        self.judged.depth
    }

    pub fn check_number(&self, n: u32) -> Result<(), Refusal> {
        refuse_if(n > self.last(), 4)
    }

    fn set_of(&self, assumptions: &[u32]) -> Result<Set, Refusal> {
        refuse_if(assumptions.iter().any(|&k| k > self.a), 4)?;
        Ok(assumptions.iter().fold(0, |set, &k| set | single(k)))
    }

    fn answer(&self, n: u32, set: Set) -> Answer {
        if let Some(nogood) = first_within(set, self.list(0)) {
            return Answer::Inconsistent(nogood);
        }
        match first_within(set, self.list(n)) {
            Some(member) => Answer::Supported(member),
            None => Answer::Unsupported,
        }
    }
}

/// The first set of a list in listing order that lies within `set`.
fn first_within(set: Set, list: &[Set]) -> Option<Set> {
    list.iter().copied().find(|&member| inside(member, set))
}

pub fn refuse_if(fault: bool, number: u32) -> Result<(), Refusal> {
    if fault { Err(Refusal::plain(number)) } else { Ok(()) }
}

pub fn check_counts(a: u32, m: u32) -> Result<(), Refusal> {
    refuse_if(a > MOST_ASSUMPTIONS || m > MOST_CLAIMS, 3)
}

pub fn check_support_count(count: u32) -> Result<(), Refusal> {
    refuse_if(count > MOST_SUPPORTS as u32, 6)
}

/// Every number of a justification is at most `last`, no support is 0, and
/// none is the consequent.
pub fn check_numbers(last: u32, consequent: u32, supports: &[u32]) -> Result<(), Refusal> {
    refuse_if(consequent > last || supports.iter().any(|&n| n > last), 4)?;
    refuse_if(supports.contains(&0), 5)?;
    refuse_if(supports.contains(&consequent), 17)
}
