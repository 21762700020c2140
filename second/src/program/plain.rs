//! The plain path: questions answered by following the justifications from one
//! set, stage by stage, with no labels.

use super::following::{self, Follows};
use super::rule::{single, Refusal, Rule, Set};
use super::store::{check_counts, check_numbers, check_support_count, refuse_if, Item};

/// Justifications to follow: those of a store, or a bare list.
pub struct Plain {
    a: u32,
    m: u32,
    rules: Vec<Rule>,
}

/// The three replies, with no reason beside them.
#[derive(Clone, Copy, Debug, PartialEq, Eq)]
pub enum Word {
    Supported,
    Unsupported,
    Inconsistent,
}

impl Plain {
    /// Of rules that have been checked before.
    pub fn of_rules(a: u32, m: u32, rules: Vec<Rule>) -> Plain {
        Plain { a, m, rules }
    }

    /// Of a bare list: 3, then each item in order by 6, 4, 5, 17.
    pub fn of_list(a: u32, m: u32, items: &[Item]) -> Result<Plain, Refusal> {
        check_counts(a, m)?;
        let mut rules = Vec::new();
        for (consequent, supports) in items {
            check_support_count(supports.len() as u32)?;
            check_numbers(a + m, *consequent, supports)?;
            rules.push(Rule::new(*consequent, supports));
        }
        Ok(Plain { a, m, rules })
    }

    pub fn ask(&self, n: u32, assumptions: &[u32]) -> Result<Word, Refusal> {
        refuse_if(n > self.a + self.m, 4)?;
        let follows = self.in_the_end(self.set_of(assumptions)?);
        Ok(word(&follows, n))
    }

    /// The value of each number from 0 to A+M.
    pub fn context(&self, assumptions: &[u32]) -> Result<Vec<u8>, Refusal> {
        let follows = self.in_the_end(self.set_of(assumptions)?);
        let value = |n| match word(&follows, n) {
            Word::Inconsistent => 2,
            Word::Supported => 1,
            Word::Unsupported => 0,
        };
        Ok((0..=self.a + self.m).map(value).collect())
    }

    /// One line a stage: the stage, then the numbers that followed by then.
    pub fn lines(&self, assumptions: &[u32]) -> Result<String, Refusal> {
        let stages = self.stages(self.set_of(assumptions)?);
        let mut text = String::new();
        for (stage, follows) in stages.iter().enumerate() {
            text.push_str(&stage.to_string());
            for n in (0..follows.len()).filter(|&n| follows[n]) {
                text.push_str(&format!(" {n}"));
            }
            text.push('\n');
        }
        Ok(text)
    }

    /// The stages from 0 to the last with something new.
    fn stages(&self, set: Set) -> Vec<Follows> {
        let mut stages = vec![following::at_stage_zero(self.a, self.m, set)];
        loop {
            let last = &stages[stages.len() - 1];
            let next = following::next_stage(self.rules.iter(), last);
            if next == *last {
                return stages;
            }
            stages.push(next);
        }
    }

    fn in_the_end(&self, set: Set) -> Follows {
        self.stages(set).pop().expect("there is always stage 0")
    }

    fn set_of(&self, assumptions: &[u32]) -> Result<Set, Refusal> {
        refuse_if(assumptions.iter().any(|&k| k > self.a), 4)?;
        Ok(assumptions.iter().fold(0, |set, &k| set | single(k)))
    }
}

/// The reply on n where all this follows in the end.
fn word(follows: &Follows, n: u32) -> Word {
    if follows[0] {
        Word::Inconsistent
    } else if follows[n as usize] {
        Word::Supported
    } else {
        Word::Unsupported
    }
}
