//! Checks of this program by itself: scripts worked by hand from the
//! documents; and on random cases
//! the two ways of finding the stages agree stage by stage where both apply;
//! and with many assumptions, what a store answers on random sets is what the
//! definition gives when it is followed for that one set.

use super::by_joins::ByJoins;
use super::by_subsets::BySubsets;
use super::random::Random;
use super::rule::{has_one_of, inside, single, Rule, Set};
use super::script;
use super::stages::{judge_by_joins, judge_by_subsets, Judged, Stages, FEW_ASSUMPTIONS};
use std::collections::BTreeSet;

const SMALL_CASES: u32 = 20_000;
const LARGE_CASES: u32 = 3_000;
const PROBES: u32 = 60;

/// Scripts worked by hand, with the replies, one call or reply a line.
const BY_HAND: &[(&str, &str)] = &[
    // Withdrawing a premise brings the longer label back; the spelling does not matter.
    (
        "open 3 1\nadd 4 1 2\nadd 4 3\nadd 4\nline 4\nwithdraw 4\nline 4\nwithdraw 4 2 2 1\nline 4\nwithdraw 4 1 2",
        "done\ndone\ndone\ndone\n4 supported {}\ndone\n4 supported {3} {1,2}\ndone\n4 supported {3}\nrefused 18\n",
    ),
    // Withdrawing a nogood gives the struck members back, and the depth falls.
    (
        "open 2 1\nadd 3 1 2\nadd 0 2\nlist\nwithdraw 0 2\nline 3\nwithdraw 3 2 1\nlist",
        "done\ndone\ndone\ncase 2 1 2 1\n0 nogood {2}\n1 supported {1}\n2 contradicted\n3 contradicted\n\
         done\n3 supported {1,2}\ndone\ncase 2 1 0 0\n0 nogood\n1 supported {1}\n2 supported {2}\n3 unsupported\n",
    ),
    // 6 before 4 before 5 before 18.
    (
        "open 1 1\nwithdraw 9 0 0 0 0 0\nwithdraw 9 0\nwithdraw 2 0\nwithdraw 2 1",
        "done\nrefused 6\nrefused 4\nrefused 5\nrefused 18\n",
    ),
    // Its own reason: alone or among others, after 6, 4 and 5, before 1 and 18.
    (
        "open 3 1\nadd 4 4\nadd 4 1 4 1\nadd 1 2 1\nadd 0 0\nadd 4 0 4\nadd 4 4 5\nadd 4 4 4 4 4 4\nwithdraw 4 4\n\
         load 01 02 02 02 01 01 03 02 01 03\nload 01 02 02 02 02 02 01 09\nload 01 01 01 02 02 00 02\nlist",
        "done\nrefused 17\nrefused 17\nrefused 17\nrefused 5\nrefused 5\nrefused 4\nrefused 6\nrefused 17\n\
         refused 17 2\nrefused 17 1\nrefused 5 1\ncase 3 1 0 0\n0 nogood\n1 supported {1}\n2 supported {2}\n3 supported {3}\n4 unsupported\n",
    ),
    // The reason is the first member of the listing order within the set: {3}
    // before {1,2}, and {1,3} (5) before {2,3} (6).
    (
        "open 4 1\nadd 5 1 2\nadd 5 3\nask 5 1 2 3\nask 5 2 1 1\nask 5 4\nwithdraw 5 3\nadd 5 2 3\nadd 5 1 3\nask 5 1 2 3\n\
         ask 5 3 2 4\nadd 0 2 3\nadd 0 4\nask 5 2 3\nask 5 1 2 3 4\nask 0 1 2 3\nask 0 1 2\nask 1 1\nadd 5\nask 5",
        "done\ndone\ndone\nsupported {3}\nsupported {1,2}\nunsupported\ndone\ndone\ndone\nsupported {1,2}\n\
         supported {2,3}\ndone\ndone\ninconsistent {2,3}\ninconsistent {4}\ninconsistent {2,3}\nunsupported\nsupported {1}\ndone\nsupported {}\n",
    ),
    // 3 follows from all assumptions at stage 2 only, above the depth; 4 does not
    // follow at all. A 3 stands in the context of a consistent set alone.
    (
        "open 1 3\nadd 0 1\nadd 2 1\nadd 3 2\nlist\ncontext\ncontext 1\nask 3\nadd 2\nline 3\nline 4\ncontext",
        "done\ndone\ndone\ndone\ncase 1 3 3 1\n0 nogood {1}\n1 contradicted\n2 contradicted\n3 contradicted\n4 unsupported\n\
         0 3 3 3 0\n2 2 2 2 2\nunsupported\ndone\n3 supported {}\n4 unsupported\n0 3 1 1 0\n",
    ),
    // A season: the replies of adding one by one, refused items passed over; the
    // list stays for the next store.
    (
        "season\nopen 2 1\nrule 3 1\nrule 3 1 1\nrule 3 3\nrule 4\nrule 0 0\nrule 1 1 1 1 1 1\nrule 3 2\nseason\nline 3\nopen 3 1\nseason\n\
         line 3\nforget\nseason\nrule\nforget 1\nseason 1",
        "done\ndone\ndone 0 1 17 4 5 6 0\n3 supported {1} {2}\ndone\ndone 0 1 17 0 5 6 0\n3 supported {1} {2} {3}\n\
         done\nbad line 17\nbad line 18\nbad line 19\n",
    ),
    // The plain path on the listed case; falsity follows at stage 1 and the rest goes on.
    (
        "load 03 02 04 04 01 01 04 02 02 03 05 02 02 04 00 02 01 02\nplain 5 2 3\nplain 4 3\nplain 5 1 2\nplain 0 1\nplain 6\nplain 5 4\n\
         plaincontext 2 3\nplaincontext\nplaincontext 1 2\nstages 2 3\nstages\nstages 1 2\nstages 4",
        "done\nsupported\nunsupported\ninconsistent\nunsupported\nrefused 4\nrefused 4\n\
         0 0 1 1 1 1\n0 0 0 0 0 0\n2 2 2 2 2 2\n0 2 3\n1 2 3 4\n2 2 3 4 5\n0\n0 1 2\n1 0 1 2 4\n2 0 1 2 4 5\nrefused 4\n",
    ),
    // A bare list: 3, the items in their order, then what was asked; the store is not looked at.
    (
        "rule 2 1\nrule 3 2 2\nrule 2 1\nbareask 1 2 3 1\nbareask 1 2 3\nbarecontext 1 2 1\nbarestages 1 2 1\nbarestages 1 2\n\
         bareask 33 97 9 1\nbareask 1 1 3 1\nbareask 1 2 4 1\nbarestages 1 2 2\nbareask 1 2 3 33\nbareask 1 2 3 0\n\
         rule 9 0\nrule 1 1 1 1 1 1\nbareask 1 2 9 1\nforget\nrule 1 1\nrule 0 0\nbarecontext 1 2 1",
        "supported\nunsupported\n0 1 1 1\n0 1\n1 1 2\n2 1 2 3\n0\n\
         refused 3\nrefused 4\nrefused 4\nrefused 4\nbad line 13\nbad line 14\nrefused 4\nrefused 17\n",
    ),
    // Written: in order, each once, supports rising; 128 is 80 01; a load of it is the same.
    (
        "write\nopen 32 96\nadd 128 127\nadd 3 2 1 2\nadd 3 9\nadd 0\nadd 3 9 9\nwrite\nload 20 60 04 00 00 03 01 09 03 02 01 02 80 01 01 7f\nwrite\n\
         withdraw 0\nwrite\nwrite 1",
        "00 00 00\ndone\ndone\ndone\ndone\ndone\nalready held\n20 60 04 00 00 03 01 09 03 02 01 02 80 01 01 7f\ndone\n\
         20 60 04 00 00 03 01 09 03 02 01 02 80 01 01 7f\ndone\n20 60 03 03 01 09 03 02 01 02 80 01 01 7f\nbad line 13\n",
    ),
    // Depth 2 with two consequents, 3 with falsity too; two more rules for them add no stage.
    (
        "open 1 2\nadd 2 1\nadd 3 2\nadd 3 1 2\nadd 2\nlist\nadd 0 3\nlist",
        "done\ndone\ndone\ndone\ndone\ncase 1 2 4 2\n0 nogood\n1 supported {1}\n2 supported {}\n3 supported {}\n\
         done\ncase 1 2 5 3\n0 nogood {}\n1 contradicted\n2 contradicted\n3 contradicted\n",
    ),
];

/// Run all; print the count; say whether all passed.
pub fn run(seed: u64) -> bool {
    let mut random = Random::new(seed);
    let mut failed = by_hand();
    let (mut early, mut late) = ([0; 10], [0; 10]);
    for _ in 0..SMALL_CASES {
        let case = small_case(&mut random);
        let (reply, stage) = reply_of(&case);
        if stage > 1 { late[reply] += 1 } else { early[reply] += 1 }
        failed += report(same_stages(&case), &case, "the two ways differ");
        failed += report(depth_fits(&case), &case, "deeper than it has consequents");
    }
    println!("small cases: {} judged", early[0]);
    println!("  refused 8: {} at stage 1, {} above", early[8], late[8]);
    println!("  refused 9: {} at stage 1, {} above", early[9], late[9]);
    let mut judged = 0;
    for _ in 0..LARGE_CASES {
        let case = large_case(&mut random);
        if let Ok(result) = judge_by_joins(case.a, case.m, &case.rules()) {
            judged += 1;
            failed += report(depth_fits(&case), &case, "deeper than it has consequents");
            failed += report(probes_agree(&mut random, &case, &result), &case, "a probe differs");
        }
    }
    println!("large cases: {judged} judged and probed on {PROBES} sets each");
    let all = BY_HAND.len() as u32 + SMALL_CASES + judged;
    println!("{} passed, {} failed", all - failed, failed);
    failed == 0
}

/// Replay the scripts worked by hand; how many differ.
fn by_hand() -> u32 {
    let mut failed = 0;
    for (input, expected) in BY_HAND {
        let said = String::from_utf8_lossy(&script::text_of(&script::replay(input.as_bytes()))).into_owned();
        if said != *expected {
            println!("by hand:\n{input}\nexpected:\n{expected}said:\n{said}");
            failed += 1;
        }
    }
    println!("by hand: {} scripts", BY_HAND.len());
    failed
}

#[derive(Debug)]
struct Case {
    a: u32,
    m: u32,
    held: Vec<Rule>,
}

impl Case {
    fn rules(&self) -> Vec<&Rule> {
        self.held.iter().collect()
    }
}

fn report(fine: bool, case: &Case, trouble: &str) -> u32 {
    if !fine {
        println!("{trouble}: {case:?}");
    }
    u32::from(!fine)
}

/// The reply number, and the stage that decided it.
fn reply_of(case: &Case) -> (usize, u32) {
    match judge_by_subsets(case.a, case.m, &case.rules()) {
        Ok(_) => (0, 0),
        Err(refusal) => (refusal.number as usize, refusal.stage),
    }
}

/// Half of them crowded, so that lists come near their limits and over them.
fn small_case(random: &mut Random) -> Case {
    if random.chance(50) {
        let a = random.from_to(7, FEW_ASSUMPTIONS);
        let m = random.from_to(1, 6);
        let count = random.from_to(20, 120);
        let falsity = *random.pick(&[0, 10, 50, 90]);
        return random_case(random, a, m, count, falsity);
    }
    let a = random.from_to(0, FEW_ASSUMPTIONS);
    let m = random.from_to(0, 12);
    let count = random.from_to(0, 40);
    let falsity = *random.pick(&[0, 5, 15, 40]);
    random_case(random, a, m, count, falsity)
}

fn large_case(random: &mut Random) -> Case {
    let a = random.from_to(FEW_ASSUMPTIONS + 1, 32);
    let m = random.from_to(0, 40);
    let count = random.from_to(0, 70);
    let falsity = *random.pick(&[0, 5, 15, 40]);
    random_case(random, a, m, count, falsity)
}

/// Random justifications, with premises and justified assumptions at a rate
/// drawn anew for each case; `falsity` of a hundred have consequent 0.
fn random_case(random: &mut Random, a: u32, m: u32, count: u32, falsity: u32) -> Case {
    let premises = *random.pick(&[0, 0, 3, 10]);
    let any_consequent = *random.pick(&[0, 0, 10, 50]);
    let from_claims = *random.pick(&[0, 10, 30, 70]);
    let fewest = *random.pick(&[1, 2, 3]);
    let mut held = Vec::new();
    for _ in 0..count {
        let consequent = if random.chance(falsity) {
            0
        } else if m == 0 || random.chance(any_consequent) {
            random.from_to(0, a + m)
        } else {
            random.from_to(a + 1, a + m)
        };
        let wanted = if random.chance(premises) || a + m == 0 { 0 } else { random.from_to(fewest, 4) };
        let mut supports = Vec::new();
        for _ in 0..wanted {
            // Two tries at most for a support that is not there yet.
            let first = random_support(random, a, m, from_claims);
            let second = random_support(random, a, m, from_claims);
            supports.push(if supports.contains(&first) { second } else { first });
        }
        supports.retain(|&n| n != consequent);
        held.push(Rule::new(consequent, &supports));
    }
    Case { a, m, held }
}

/// A claim in `from_claims` of a hundred cases, else an assumption.
fn random_support(random: &mut Random, a: u32, m: u32, from_claims: u32) -> u32 {
    if a == 0 || (m > 0 && random.chance(from_claims)) {
        random.from_to(a + 1, a + m)
    } else {
        random.from_to(1, a)
    }
}

/// Both ways give the same lists at each stage up to one that agrees with the
/// stage before it, or the same list is over its limit first.
fn same_stages(case: &Case) -> bool {
    let rules = case.rules();
    let mut subsets = BySubsets::new(case.a, case.m, &rules);
    let mut joins = ByJoins::new(case.a, case.m, &rules);
    let mut last = None;
    loop {
        let stage = subsets.next_stage();
        if stage != joins.next_stage() {
            return false;
        }
        if stage.is_err() || last.as_ref() == Some(&stage) {
            break;
        }
        last = Some(stage);
    }
    judge_by_subsets(case.a, case.m, &rules) == judge_by_joins(case.a, case.m, &rules)
}

/// The depth is no more than the number of different consequents.
fn depth_fits(case: &Case) -> bool {
    let consequents: BTreeSet<u32> = case.held.iter().map(|rule| rule.consequent).collect();
    match judge_by_joins(case.a, case.m, &case.rules()) {
        Ok(judged) => judged.depth as usize <= consequents.len(),
        Err(_) => true,
    }
}

/// Random sets, and sets made of a member or two, against the definition.
fn probes_agree(random: &mut Random, case: &Case, judged: &Judged) -> bool {
    let members: Vec<Set> = judged.lists.concat();
    (0..PROBES).all(|_| {
        let mut set = random.next() as Set & random.next() as Set & random.next() as Set;
        if !members.is_empty() && random.chance(60) {
            set = *random.pick(&members);
            if random.chance(50) {
                set |= random.pick(&members);
            }
            if random.chance(40) {
                set &= !(1 << random.from_to(0, 31));
            }
        }
        probe(case, judged, set & all_assumptions(case.a))
    })
}

fn all_assumptions(a: u32) -> Set {
    (1..=a).fold(0, |set, k| set | single(k))
}

/// One set: the lists say of every number what following the rules says, and
/// the set is in a list exactly when no smaller set does as well.
fn probe(case: &Case, judged: &Judged, set: Set) -> bool {
    let follows = closure(case, set);
    let parts: Vec<Vec<bool>> = (1..=case.a)
        .filter(|&k| inside(single(k), set))
        .map(|k| closure(case, set & !single(k)))
        .collect();
    (0..follows.len()).all(|n| {
        let holds = follows[n] && (n == 0 || !follows[0]);
        let smallest = holds && parts.iter().all(|part| !part[n]);
        let said = has_one_of(set, &judged.lists[n]) && (n == 0 || !has_one_of(set, &judged.lists[0]));
        said == holds && judged.lists[n].contains(&set) == smallest
    })
}

/// What follows from one set, at place n for number n, when nothing more does.
fn closure(case: &Case, set: Set) -> Vec<bool> {
    let mut follows = vec![false; (case.a + case.m + 1) as usize];
    for k in 1..=case.a {
        follows[k as usize] = inside(single(k), set);
    }
    loop {
        let old = follows.clone();
        for rule in &case.held {
            if rule.supports.iter().all(|&n| old[n as usize]) {
                follows[rule.consequent as usize] = true;
            }
        }
        if follows == old {
            return follows;
        }
    }
}
