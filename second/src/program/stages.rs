//! The stages of a set of justifications, from 0 upward: which stage decides,
//! what it decides, and the depth.

use super::by_joins::ByJoins;
use super::by_subsets::BySubsets;
use super::rule::{Refusal, Rule, Set};

/// Up to this many assumptions, all subsets are tried.
pub const FEW_ASSUMPTIONS: u32 = 10;

/// All lists of one stage, each in listing order: place 0 has the nogoods,
/// place n the label of n.
pub type Lists = Vec<Vec<Set>>;

/// A list of a stage that is over its limit. Nogoods come before labels, and
/// among labels the lowest number.
#[derive(Clone, Copy, Debug, PartialEq, Eq)]
pub enum Over {
    Nogoods,
    Label(u32),
}

/// A way of finding the stages: the first call gives stage 0, each later call
/// the stage after it.
pub trait Stages {
    fn next_stage(&mut self) -> Result<Lists, Over>;
}

/// What a store knows of its justifications: the lists at the depth.
#[derive(Clone, Debug, PartialEq, Eq)]
pub struct Judged {
    pub lists: Lists,
    pub depth: u32,
}

/// Judge a set of justifications over `a` assumptions and `m` claims.
pub fn judge(a: u32, m: u32, rules: &[&Rule]) -> Result<Judged, Refusal> {
    if a <= FEW_ASSUMPTIONS {
        judge_by_subsets(a, m, rules)
    } else {
        judge_by_joins(a, m, rules)
    }
}

pub fn judge_by_subsets(a: u32, m: u32, rules: &[&Rule]) -> Result<Judged, Refusal> {
    walk(&mut BySubsets::new(a, m, rules))
}

pub fn judge_by_joins(a: u32, m: u32, rules: &[&Rule]) -> Result<Judged, Refusal> {
    walk(&mut ByJoins::new(a, m, rules))
}

/// Go up the stages until one agrees with the next or a list is too long. It
/// ends: while lists change, some set gains a number, and the numbers that can
/// be gained are the consequents.
fn walk(stages: &mut dyn Stages) -> Result<Judged, Refusal> {
    let mut lists = stage(stages, 0)?;
    let mut depth = 0;
    loop {
        let next = stage(stages, depth + 1)?;
        if next == lists {
            return Ok(Judged { lists, depth });
        }
        lists = next;
        depth += 1;
    }
}

/// One stage, with a list over its limit turned into the refusal it means.
fn stage(stages: &mut dyn Stages, stage: u32) -> Result<Lists, Refusal> {
    stages.next_stage().map_err(|over| match over {
        Over::Nogoods => Refusal { number: 9, named: None, stage },
        Over::Label(n) => Refusal { number: 8, named: Some(n), stage },
    })
}
