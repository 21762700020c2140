//! Limits, numbers, sets and justifications.

use std::cmp::Ordering;

pub const MOST_ASSUMPTIONS: u32 = 32;
pub const MOST_CLAIMS: u32 = 96;
pub const MOST_SUPPORTS: usize = 4;
pub const MOST_HELD: usize = 256;
pub const MOST_MEMBERS: usize = 12;
pub const MOST_NOGOODS: usize = 32;

/// A set of assumptions: assumption k is worth 2^(k-1).
pub type Set = u32;

/// The set that holds assumption k alone.
pub fn single(k: u32) -> Set {
    1 << (k - 1)
}

/// Does every assumption of `inner` lie in `outer`?
pub fn inside(inner: Set, outer: Set) -> bool {
    inner & !outer == 0
}

/// Does `set` have some member of `list` inside it?
pub fn has_one_of(set: Set, list: &[Set]) -> bool {
    list.iter().any(|&member| inside(member, set))
}

/// The listing order: fewer assumptions first, then the smaller number.
pub fn sort_for_listing(list: &mut [Set]) {
    list.sort_by_key(|set| (set.count_ones(), *set));
}

/// One justification as the store holds it: supports rising, none twice.
#[derive(Clone, Debug, PartialEq, Eq)]
pub struct Rule {
    pub consequent: u32,
    pub supports: Vec<u32>,
}

impl Rule {
    pub fn new(consequent: u32, handed_over: &[u32]) -> Rule {
        let mut supports = handed_over.to_vec();
        supports.sort();
        supports.dedup();
        Rule { consequent, supports }
    }
}

/// By consequent, then by number of supports, then by the supports as lists.
impl Ord for Rule {
    fn cmp(&self, other: &Rule) -> Ordering {
        (self.consequent, self.supports.len(), &self.supports)
            .cmp(&(other.consequent, other.supports.len(), &other.supports))
    }
}

impl PartialOrd for Rule {
    fn partial_cmp(&self, other: &Rule) -> Option<Ordering> {
        Some(self.cmp(other))
    }
}

/// Why a call was refused.
#[derive(Clone, Copy, Debug, PartialEq, Eq)]
pub struct Refusal {
    pub number: u32,
    /// The number with the long label; refusal 8 alone names one.
    pub named: Option<u32>,
    /// The stage that decided, for 8 and 9; else 0.
    pub stage: u32,
}

impl Refusal {
    pub fn plain(number: u32) -> Refusal {
        Refusal { number, named: None, stage: 0 }
    }
}
