//! What follows from one set, stage by stage, with no labels at all.

use super::rule::{inside, single, Rule, Set};

/// At place n: does n follow?
pub type Follows = Vec<bool>;

/// Stage 0: exactly the assumptions in the set follow.
pub fn at_stage_zero(a: u32, m: u32, set: Set) -> Follows {
    (0..=a + m).map(|n| n >= 1 && n <= a && inside(single(n), set)).collect()
}

/// The next stage: all that followed, and the consequent of each rule whose
/// supports all followed.
pub fn next_stage<'a>(rules: impl Iterator<Item = &'a Rule>, old: &Follows) -> Follows {
    let mut new = old.clone();
    for rule in rules {
        if rule.supports.iter().all(|&n| old[n as usize]) {
            new[rule.consequent as usize] = true;
        }
    }
    new
}

/// What follows from all assumptions together when nothing new follows.
pub fn from_all(a: u32, m: u32, rules: &[&Rule]) -> Follows {
    let all = (1..=a).fold(0, |set, k| set | single(k));
    let mut follows = at_stage_zero(a, m, all);
    loop {
        let next = next_stage(rules.iter().copied(), &follows);
        if next == follows {
            return follows;
        }
        follows = next;
    }
}
