//! The stages straight from their definition, for few assumptions: for every
//! number, one bit for each of the 2^A sets says whether the number follows.

use super::rule::{sort_for_listing, Rule, Set, MOST_MEMBERS, MOST_NOGOODS};
use super::stages::{Lists, Over, Stages};

/// One bit a set: set E is bit E%64 of word E/64.
type Bits = Vec<u64>;

pub struct BySubsets {
    a: u32,
    rules: Vec<Rule>,
    /// At place n, the sets from which n follows at the stage reached.
    follows: Vec<Bits>,
    started: bool,
}

impl BySubsets {
    pub fn new(a: u32, m: u32, rules: &[&Rule]) -> BySubsets {
        let follows = (0..=a + m).map(|n| stage_zero(a, n)).collect();
        let rules = rules.iter().map(|&rule| rule.clone()).collect();
        BySubsets { a, rules, follows, started: false }
    }

    /// All that followed still follows, and the consequents of the rules whose
    /// supports all followed at the old stage.
    fn advance(&mut self) {
        let old = self.follows.clone();
        for rule in &self.rules {
            let mut sets = every_set(self.a);
            for &support in &rule.supports {
                keep_common(&mut sets, &old[support as usize]);
            }
            take_in(&mut self.follows[rule.consequent as usize], &sets);
        }
    }

    /// The lists of the stage reached.
    fn lists(&self) -> Result<Lists, Over> {
        let falsity = &self.follows[0];
        let nogoods = smallest(self.a, falsity);
        if count(&nogoods) > MOST_NOGOODS {
            return Err(Over::Nogoods);
        }
        let mut lists = vec![members(&nogoods)];
        for n in 1..self.follows.len() {
            let mut label = smallest(self.a, &self.follows[n]);
            strike(&mut label, falsity);
            if count(&label) > MOST_MEMBERS {
                return Err(Over::Label(n as u32));
            }
            lists.push(members(&label));
        }
        Ok(lists)
    }
}

impl Stages for BySubsets {
    fn next_stage(&mut self) -> Result<Lists, Over> {
        if self.started {
            self.advance();
        }
        self.started = true;
        self.lists()
    }
}

/// At stage 0 a number follows from the sets that have it as an assumption.
fn stage_zero(a: u32, n: u32) -> Bits {
    let mut bits = no_set(a);
    if n >= 1 && n <= a {
        for set in 0..1usize << a {
            if set >> (n - 1) & 1 == 1 {
                bits[set / 64] |= 1 << (set % 64);
            }
        }
    }
    bits
}

fn no_set(a: u32) -> Bits {
    vec![0; (1usize << a).div_ceil(64)]
}

fn every_set(a: u32) -> Bits {
    if a < 6 {
        vec![(1u64 << (1u32 << a)) - 1]
    } else {
        vec![u64::MAX; 1 << (a - 6)]
    }
}

fn keep_common(bits: &mut Bits, other: &Bits) {
    bits.iter_mut().zip(other).for_each(|(word, &more)| *word &= more);
}

fn take_in(bits: &mut Bits, other: &Bits) {
    bits.iter_mut().zip(other).for_each(|(word, &more)| *word |= more);
}

fn strike(bits: &mut Bits, other: &Bits) {
    bits.iter_mut().zip(other).for_each(|(word, &less)| *word &= !less);
}

fn count(bits: &Bits) -> usize {
    bits.iter().map(|word| word.count_ones() as usize).sum()
}

/// The sets of `bits` no proper subset of which is in `bits`. What follows
/// from a set follows from every larger one, so it is enough to look at the
/// sets with one assumption less.
fn smallest(a: u32, bits: &Bits) -> Bits {
    let mut left = bits.clone();
    for place in 0..a {
        strike(&mut left, &with_one_more(bits, place));
    }
    left
}

/// The sets of `bits` that lack the assumption at `place`, with it added.
fn with_one_more(bits: &Bits, place: u32) -> Bits {
    // Within a word: the bits whose place in the word has bit `place` set.
    const UPPER: [u64; 6] = [
        0xAAAA_AAAA_AAAA_AAAA,
        0xCCCC_CCCC_CCCC_CCCC,
        0xF0F0_F0F0_F0F0_F0F0,
        0xFF00_FF00_FF00_FF00,
        0xFFFF_0000_FFFF_0000,
        0xFFFF_FFFF_0000_0000,
    ];
    let mut raised = vec![0; bits.len()];
    for i in 0..bits.len() {
        if place < 6 {
            raised[i] = bits[i] << (1u32 << place) & UPPER[place as usize];
        } else if i >> (place - 6) & 1 == 1 {
            raised[i] = bits[i ^ 1 << (place - 6)];
        }
    }
    raised
}

/// The sets of `bits` as a list in listing order.
fn members(bits: &Bits) -> Vec<Set> {
    let mut list = Vec::new();
    for (i, &word) in bits.iter().enumerate() {
        let mut left = word;
        while left != 0 {
            list.push((i * 64) as Set + left.trailing_zeros());
            left &= left - 1;
        }
    }
    sort_for_listing(&mut list);
    list
}
