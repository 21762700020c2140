//! The stages for any number of assumptions: labels are joined support by
//! support into antichains (lists with no member inside another) that may
//! grow to any length. Only the finished lists of a stage are measured.
//!
//! Why the labels of the stage before are enough: if a set does not
//! contradict itself at the new stage, neither did any part of it at the old
//! one, so whatever followed from it has a label member inside it.

use super::rule::{has_one_of, inside, single, sort_for_listing};
use super::rule::{Rule, Set, MOST_MEMBERS, MOST_NOGOODS};
use super::stages::{Lists, Over, Stages};

pub struct ByJoins {
    /// At place n, the support lists of the rules with consequent n.
    rules_for: Vec<Vec<Vec<u32>>>,
    lists: Lists,
    /// At place n: did list n change at the last step?
    changed: Vec<bool>,
    stage: u32,
    started: bool,
}

impl ByJoins {
    pub fn new(a: u32, m: u32, rules: &[&Rule]) -> ByJoins {
        let numbers = (a + m + 1) as usize;
        let mut rules_for = vec![Vec::new(); numbers];
        for rule in rules {
            rules_for[rule.consequent as usize].push(rule.supports.clone());
        }
        let is_assumption = |n: u32| n >= 1 && n <= a;
        let list_of = |n: u32| if is_assumption(n) { vec![single(n)] } else { vec![] };
        let lists = (0..=a + m).map(list_of).collect();
        ByJoins { rules_for, lists, changed: vec![true; numbers], stage: 0, started: false }
    }

    fn advance(&mut self) -> Result<(), Over> {
        let nogoods = self.next_list(0, &[]);
        if nogoods.len() > MOST_NOGOODS {
            return Err(Over::Nogoods);
        }
        let mut next = vec![nogoods];
        for n in 1..self.lists.len() {
            let label = self.next_list(n, &next[0]);
            if label.len() > MOST_MEMBERS {
                return Err(Over::Label(n as u32));
            }
            next.push(label);
        }
        self.changed = next.iter().zip(&self.lists).map(|(new, old)| new != old).collect();
        self.lists = next;
        self.stage += 1;
        Ok(())
    }

    /// The list of n at the next stage: the old list and the joins of all the
    /// rules for n, without the sets that contain one of `nogoods`.
    fn next_list(&self, n: usize, nogoods: &[Set]) -> Vec<Set> {
        let mut list = Antichain::default();
        for &set in &self.lists[n] {
            if !has_one_of(set, nogoods) {
                list.put(set);
            }
        }
        // The rules with few joins first: their sets make short work of others.
        let mut rules: Vec<&[u32]> = self.rules_for[n].iter().map(Vec::as_slice).collect();
        rules.retain(|supports| self.may_bring_news(supports));
        rules.sort_by_key(|supports| self.count_of_joins(supports));
        for supports in rules {
            self.put_joins(supports, nogoods, &mut list);
        }
        list.in_listing_order()
    }

    fn count_of_joins(&self, supports: &[u32]) -> usize {
        supports.iter().map(|&support| self.lists[support as usize].len()).product()
    }

    /// Where no support's label changed at the last step, the joins are those
    /// of the last step, and the old list has dealt with them already.
    fn may_bring_news(&self, supports: &[u32]) -> bool {
        self.stage == 0 || supports.iter().any(|&support| self.changed[support as usize])
    }

    /// Put into `list` every join of one member from each support's label. A
    /// half-made join that contains a nogood or a set of `list` is left: what
    /// would come of it contains the same.
    fn put_joins(&self, supports: &[u32], nogoods: &[Set], list: &mut Antichain) {
        let mut joins = vec![0];
        for &support in supports {
            let mut longer = Antichain::default();
            for &join in &joins {
                for &member in &self.lists[support as usize] {
                    let set = join | member;
                    if !has_one_of(set, nogoods) && !list.covers(set) {
                        longer.put(set);
                    }
                }
            }
            joins = longer.sets;
        }
        for join in joins {
            if !has_one_of(join, nogoods) {
                list.put(join);
            }
        }
    }
}

impl Stages for ByJoins {
    fn next_stage(&mut self) -> Result<Lists, Over> {
        if self.started {
            self.advance()?;
        }
        self.started = true;
        Ok(self.lists.clone())
    }
}

/// Sets of which none lies inside another, in no order.
#[derive(Default)]
struct Antichain {
    sets: Vec<Set>,
}

impl Antichain {
    fn covers(&self, set: Set) -> bool {
        has_one_of(set, &self.sets)
    }

    /// Take in a set unless a part of it is here; drop the sets it is part of.
    fn put(&mut self, set: Set) {
        if !self.covers(set) {
            self.sets.retain(|&other| !inside(set, other));
            self.sets.push(set);
        }
    }

    fn in_listing_order(self) -> Vec<Set> {
        let mut sets = self.sets;
        sort_for_listing(&mut sets);
        sets
    }
}
