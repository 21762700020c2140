//! The named cases, each with its reply written out from the documents.

use crate::cases::{number, Case};
use crate::jobs::{both, Program};

pub struct Named {
    pub name: &'static str,
    pub program: Program,
    pub input: Vec<u8>,
    pub expected: Vec<u8>,
}

pub fn all() -> Vec<Named> {
    let mut cases = listed_case();
    cases.extend(number_forms());
    cases.extend(thirteen_singles());
    cases.extend(premise_first());
    cases.extend(premise_fifteen());
    cases.extend(pairs());
    cases.extend(five_supports());
    cases.extend(held_256());
    cases.extend(withdrawals());
    cases.extend(own_reasons());
    cases.extend(reasons());
    cases.extend(third_word());
    cases.extend(seasons());
    cases.extend(plain_path());
    cases.extend(written());
    cases
}

fn file(name: &'static str, input: Vec<u8>, expected: &str) -> Named {
    Named { name, program: Program::List, input, expected: expected.as_bytes().to_vec() }
}

fn script(name: &'static str, input: String, expected: String) -> Named {
    Named { name, program: Program::Replay, input: input.into_bytes(), expected: expected.into_bytes() }
}

fn rewriting(name: &'static str, input: Vec<u8>, output: &[u8], errors: &str) -> Named {
    Named { name, program: Program::Rewrite, input, expected: both(output, errors.as_bytes()) }
}

/// The listing line of each of the first `last` assumptions, alone.
fn singles(last: u32) -> String {
    (1..=last).map(|k| format!("{k} supported {{{k}}}\n")).collect()
}

fn listed_case() -> Vec<Named> {
    let bytes = vec![3, 2, 4, 4, 1, 1, 4, 2, 2, 3, 5, 2, 2, 4, 0, 2, 1, 2];
    let expected = "case 3 2 4 2\n\
                    0 nogood {1,2}\n\
                    1 supported {1}\n\
                    2 supported {2}\n\
                    3 supported {3}\n\
                    4 supported {1} {2,3}\n\
                    5 supported {2,3}\n";
    vec![
        file("the listed case", bytes, expected),
        file("empty input", vec![], "refused 11 0\n"),
        file("nothing held", vec![0, 0, 0], "case 0 0 0 0\n0 nogood\n"),
    ]
}

fn number_forms() -> Vec<Named> {
    // The third number of the header is a count: 127 and 128 go on to the
    // records, 300 and 16,383 are above 256, 80 00 is no number.
    vec![
        file("127", vec![0, 0, 0x7F], "refused 11 1\n"),
        file("128 is 80 01", vec![0, 0, 0x80, 0x01], "refused 11 1\n"),
        file("300 is AC 02", vec![0, 0, 0xAC, 0x02], "refused 7 0\n"),
        file("16,383 is FF 7F", vec![0, 0, 0xFF, 0x7F], "refused 7 0\n"),
        file("80 00", vec![0, 0, 0x80, 0x00], "refused 12 0\n"),
        file("80 alone", vec![0, 0, 0x80], "refused 11 0\n"),
    ]
}

fn singles_case(m: u32, count: u32, more: &[(u32, Vec<u32>)]) -> Vec<u8> {
    let mut records: Vec<(u32, Vec<u32>)> = (1..=count).map(|k| (14, vec![k])).collect();
    records.extend(more.iter().cloned());
    Case { a: 13, m, records }.bytes()
}

fn add_singles() -> String {
    (1..=13).map(|k| format!("add 14 {k}\n")).collect()
}

const TWELVE: &str =
    "14 supported {1} {2} {3} {4} {5} {6} {7} {8} {9} {10} {11} {12}\n";

fn thirteen_singles() -> Vec<Named> {
    let listed = format!("case 13 1 12 1\n0 nogood\n{}{TWELVE}", singles(13));
    vec![
        script(
            "thirteen singles, added",
            format!("open 13 1\n{}line 14\nlist\n", add_singles()),
            format!("done\n{}refused 8 14\n{TWELVE}{listed}", "done\n".repeat(12)),
        ),
        file("twelve singles, loaded", singles_case(1, 12, &[]), &listed),
        file("thirteen singles, loaded", singles_case(1, 13, &[]), "refused 8 13\n"),
    ]
}

fn premise_first() -> Vec<Named> {
    let listed = format!("case 13 1 14 1\n0 nogood\n{}14 supported {{}}\n", singles(13));
    vec![
        script(
            "a premise for 14 first, added",
            format!("open 13 1\nadd 14\n{}list\n", add_singles()),
            format!("done\ndone\n{}{listed}", "done\n".repeat(13)),
        ),
        file("a premise for 14, loaded", singles_case(1, 13, &[(14, vec![])]), &listed),
    ]
}

fn premise_fifteen() -> Vec<Named> {
    let more = [(15, vec![]), (14, vec![15])];
    vec![
        file("15 a premise, 14 from 15, loaded", singles_case(2, 13, &more), "refused 8 15\n"),
        script(
            "15 a premise, 14 from 15, added",
            format!("open 13 2\nadd 15\nadd 14 15\nline 14\n{}line 14\n", add_singles()),
            format!(
                "done\ndone\ndone\n14 supported {{}}\n{}refused 8 14\n14 supported {{}}\n",
                "done\n".repeat(12)
            ),
        ),
    ]
}

/// All pairs of nine assumptions, {1,2} {1,3} and on to {8,9}.
fn all_pairs() -> Vec<(u32, u32)> {
    (1..=9).flat_map(|x| (x + 1..=9).map(move |y| (x, y))).collect()
}

fn pairs_case(count: usize) -> Vec<u8> {
    let records = all_pairs()[..count].iter().map(|&(x, y)| (0, vec![x, y])).collect();
    Case { a: 9, m: 0, records }.bytes()
}

fn pairs() -> Vec<Named> {
    let adds: String = all_pairs()[..33].iter().map(|(x, y)| format!("add 0 {x} {y}\n")).collect();
    // In listing order, so by the numbers 2^(x-1) + 2^(y-1). Left out of the
    // first 32 are {6,9}, {7,8}, {7,9} and {8,9}.
    let nogoods = "0 nogood {1,2} {1,3} {2,3} {1,4} {2,4} {3,4} {1,5} {2,5} {3,5} {4,5} \
                   {1,6} {2,6} {3,6} {4,6} {5,6} {1,7} {2,7} {3,7} {4,7} {5,7} {6,7} \
                   {1,8} {2,8} {3,8} {4,8} {5,8} {6,8} {1,9} {2,9} {3,9} {4,9} {5,9}\n";
    let listed = format!("case 9 0 32 1\n{nogoods}{}", singles(9));
    vec![
        script(
            "32 and 33 pairs, added",
            format!("open 9 0\n{adds}list\n"),
            format!("done\n{}refused 9\n{listed}", "done\n".repeat(32)),
        ),
        file("32 pairs, loaded", pairs_case(32), &listed),
        file("33 pairs, loaded", pairs_case(33), "refused 9 33\n"),
    ]
}

/// A rule out again: in another spelling, not held, with bad numbers, and kept
/// in because a list would grow over its limit.
fn withdrawals() -> Vec<Named> {
    let pairs: String = all_pairs()[..33].iter().map(|(x, y)| format!("add 0 {x} {y}\n")).collect();
    vec![
        script(
            "withdrawn",
            "open 3 2\nwithdraw 4 1\nadd 4 1 2\nadd 5 4\nwithdraw 4 2 1 2\nlist\nwithdraw 4 1 2\nadd 4\nlist\n".to_string(),
            "done\nrefused 18\ndone\ndone\ndone\n\
             case 3 2 1 0\n0 nogood\n1 supported {1}\n2 supported {2}\n3 supported {3}\n4 unsupported\n5 unsupported\n\
             refused 18\ndone\n\
             case 3 2 2 2\n0 nogood\n1 supported {1}\n2 supported {2}\n3 supported {3}\n4 supported {}\n5 supported {}\n"
                .to_string(),
        ),
        script(
            "withdrawn with bad numbers",
            "open 1 1\nadd 2 1\nwithdraw 2 1 1 1 1 1\nwithdraw 3 0 0 0 0 0\nwithdraw 3 0\nwithdraw 2 0 3\n\
             withdraw 2 0\nwithdraw 0 0\nwithdraw 2\nwithdraw\nline 2\n"
                .to_string(),
            "done\ndone\nrefused 6\nrefused 6\nrefused 4\nrefused 4\nrefused 5\nrefused 5\nrefused 18\nbad line 10\n2 supported {1}\n"
                .to_string(),
        ),
        script(
            "thirteen singles, their premise withdrawn",
            format!("open 13 1\nadd 14\n{}withdraw 14\nline 14\nwithdraw 14 13\nwithdraw 14\nline 14\nadd 14 13\n", add_singles()),
            format!("done\ndone\n{}refused 8 14\n14 supported {{}}\ndone\ndone\n{TWELVE}refused 8 14\n", "done\n".repeat(13)),
        ),
        script(
            "33 pairs, their premise withdrawn",
            format!("open 9 0\nadd 0\n{pairs}withdraw 0\nline 0\nwithdraw 0 1 2\nwithdraw 0\nask 0 1 2\nask 0 3 2 1\n"),
            format!("done\ndone\n{}refused 9\n0 nogood {{}}\ndone\ndone\nunsupported\ninconsistent {{1,3}}\n", "done\n".repeat(33)),
        ),
    ]
}

fn five_supports() -> Vec<Named> {
    let bytes = vec![1, 1, 1, 2, 5, 1, 1, 1, 1, 1];
    let listed = "case 1 1 1 1\n0 nogood\n1 supported {1}\n2 supported {1}\n";
    vec![
        file("five equal supports, loaded", bytes, "refused 6 1\n"),
        file("four equal supports, loaded", vec![1, 1, 1, 2, 4, 1, 1, 1, 1], listed),
        script(
            "five equal supports, added",
            "open 1 1\nadd 2 1 1 1 1 1\nadd 2 1 1 1 1\nadd 2 1\nlist\n".to_string(),
            format!("done\nrefused 6\ndone\nalready held\n{listed}"),
        ),
    ]
}

/// 256 justifications in a ring: each of the claims 33 to 40 from the next one
/// (33 from the last) and one of the 32 assumptions, so that none follows.
fn held_256() -> Vec<Named> {
    let next = |c: u32| if c == 40 { 33 } else { c + 1 };
    let records: Vec<(u32, Vec<u32>)> =
        (33..=40).flat_map(|c| (1..=32).map(move |k| (c, vec![next(c), k]))).collect();
    let adds: String = records.iter().map(|(c, s)| format!("add {c} {} {}\n", s[0], s[1])).collect();
    let unsupported: String = (33..=40).map(|c| format!("{c} unsupported\n")).collect();
    let listed = format!("case 32 8 256 0\n0 nogood\n{}{unsupported}", singles(32));
    let bytes = Case { a: 32, m: 8, records }.bytes();
    let above = [vec![32, 8], number(257), vec![33, 1, 34]].concat();
    vec![
        script(
            "256 held",
            format!("open 32 8\n{adds}add 40 32 33\nadd 40\nadd 41\nadd 40 0\nadd 40 40\nlist\n"),
            format!(
                "done\n{}already held\nrefused 7\nrefused 4\nrefused 5\nrefused 17\n{listed}",
                "done\n".repeat(256)
            ),
        ),
        script(
            "256 held, one withdrawn",
            format!("open 32 8\n{adds}add 40 34\nwithdraw 40 32 33\nadd 40 34\nadd 39 33\nwithdraw 40 34\nadd 40 33 32\nlist\n"),
            format!("done\n{}refused 7\ndone\ndone\nrefused 7\ndone\ndone\n{listed}", "done\n".repeat(256)),
        ),
        file("256 records", bytes, &listed),
        file("257 records", above, "refused 7 0\n"),
    ]
}

/// No claim as its own reason: with the record it is in, after that record's 5.
fn own_reasons() -> Vec<Named> {
    vec![
        file("its own reason alone", vec![0, 1, 1, 1, 1, 1], "refused 17 1\n"),
        file("its own reason among others", vec![3, 1, 2, 4, 1, 1, 4, 3, 1, 4, 2], "refused 17 2\n"),
        file("its own reason before a cut", vec![1, 1, 2, 2, 1, 2], "refused 17 1\n"),
        file("its own reason and falsity", vec![1, 1, 1, 2, 2, 2, 0], "refused 5 1\n"),
        file("falsity from falsity", vec![1, 1, 1, 0, 1, 0], "refused 5 1\n"),
        file("its own reason above the last number", vec![1, 1, 1, 3, 1, 3], "refused 4 1\n"),
        script(
            "its own reason, added and withdrawn",
            "open 3 1\nadd 4 1 4\nadd 4 4\nadd 2 2\nadd 0 0\nadd 4 4 0\nadd 5 5\nadd 4 4 4 4 4 4\n\
             withdraw 4 1 4\nwithdraw 0 0\nline 4\n"
                .to_string(),
            "done\nrefused 17\nrefused 17\nrefused 17\nrefused 5\nrefused 5\nrefused 4\nrefused 6\n\
             refused 17\nrefused 5\n4 unsupported\n"
                .to_string(),
        ),
    ]
}

/// The reason beside the answer, on the listed case and where members compete.
fn reasons() -> Vec<Named> {
    vec![
        script(
            "reasons in the listed case",
            "load 03 02 04 04 01 01 04 02 02 03 05 02 02 04 00 02 01 02\n\
             ask 4 1 3\nask 4 2 3\nask 4 3 2 2\nask 5 3 2\nask 5 1 3\nask 4 1 2 3\nask 0 2 1\nask 0 1 3\nask 3 3\nask 6 1\nask 4 4\n"
                .to_string(),
            "done\nsupported {1}\nsupported {2,3}\nsupported {2,3}\nsupported {2,3}\nunsupported\ninconsistent {1,2}\n\
             inconsistent {1,2}\nunsupported\nsupported {3}\nrefused 4\nrefused 4\n"
                .to_string(),
        ),
        script(
            "fewer assumptions first, then the smaller number",
            "open 4 1\nadd 5 1 2\nadd 5 4\nadd 5 3\nask 5 1 2 3 4\nask 5 1 2 4\nask 5 1 2\nadd 0 1 2\nadd 0 3 4\nask 5 1 2 3 4\nask 5 3 4\nadd 0\nask 5\nask 0 1 2\n"
                .to_string(),
            "done\ndone\ndone\ndone\nsupported {3}\nsupported {4}\nsupported {1,2}\ndone\ndone\ninconsistent {1,2}\ninconsistent {3,4}\n\
             done\ninconsistent {}\ninconsistent {}\n"
                .to_string(),
        ),
    ]
}

/// `contradicted`: from all assumptions together, in the end, falsity ignored.
fn third_word() -> Vec<Named> {
    vec![
        file(
            "contradicted above the depth",
            vec![1, 2, 3, 0, 1, 1, 2, 1, 1, 3, 1, 2],
            "case 1 2 3 1\n0 nogood {1}\n1 contradicted\n2 contradicted\n3 contradicted\n",
        ),
        file(
            "a premise for falsity",
            vec![1, 2, 2, 0, 0, 2, 0],
            "case 1 2 2 1\n0 nogood {}\n1 contradicted\n2 contradicted\n3 unsupported\n",
        ),
        file("no rule mentions it", vec![0, 1, 0], "case 0 1 0 0\n0 nogood\n1 unsupported\n"),
        file(
            "two claims that support each other",
            vec![1, 2, 2, 2, 1, 3, 3, 1, 2],
            "case 1 2 2 0\n0 nogood\n1 supported {1}\n2 unsupported\n3 unsupported\n",
        ),
        file(
            "only from a group that contradicts itself",
            vec![3, 1, 2, 0, 2, 1, 2, 4, 3, 1, 2, 3],
            "case 3 1 2 1\n0 nogood {1,2}\n1 supported {1}\n2 supported {2}\n3 supported {3}\n4 contradicted\n",
        ),
        script(
            "contradicted in a context",
            "open 3 2\nadd 0 1 2\nadd 4 1 2\ncontext\ncontext 1 3\ncontext 2 1\nask 4 1\nline 4\nline 5\nadd 4 3\ncontext 1\nline 4\nwithdraw 0 1 2\nwithdraw 4 3\ncontext 1\n"
                .to_string(),
            "done\ndone\ndone\n0 0 0 0 3 0\n0 1 0 1 3 0\n2 2 2 2 2 2\nunsupported\n4 contradicted\n5 unsupported\ndone\n\
             0 1 0 0 0 0\n4 supported {3}\ndone\ndone\n0 1 0 0 0 0\n"
                .to_string(),
        ),
    ]
}

/// A season's rules at once, and the list in hand at its limit.
fn seasons() -> Vec<Named> {
    let singles: String = (1..=13).map(|k| format!("rule 14 {k}\n")).collect();
    let full = "rule 1 2\n".repeat(256);
    vec![
        script(
            "a season",
            "open 2 2\nrule 3 1\nrule 3 1 1\nrule 5\nrule 0 0\nrule 4 3 4\nrule 1 1 1 1 1 1\nrule 4 3 2\nseason\nlist\nseason\n".to_string(),
            "done\ndone 0 1 4 5 17 6 0\ncase 2 2 2 2\n0 nogood\n1 supported {1}\n2 supported {2}\n3 supported {1}\n4 supported {1,2}\n\
             done 1 1 4 5 17 6 1\n"
                .to_string(),
        ),
        script(
            "a season of thirteen singles",
            format!("season\n{singles}rule 14\nrule 14 13\nopen 13 1\nseason\nline 14\nforget\nseason\n"),
            "done\ndone\ndone 0 0 0 0 0 0 0 0 0 0 0 0 8 0 0\n14 supported {}\ndone\n".to_string(),
        ),
        script(
            "256 items in hand, and one more",
            format!("{full}rule 1 2\nopen 2 0\nseason\nlist\n"),
            format!("bad line 257\ndone\ndone 0{}\ncase 2 0 1 1\n0 nogood\n1 supported {{1}} {{2}}\n2 supported {{2}}\n", " 1".repeat(255)),
        ),
    ]
}

/// The plain path on the listed case and on a bare list.
fn plain_path() -> Vec<Named> {
    vec![
        script(
            "the plain path on the listed case",
            "load 03 02 04 04 01 01 04 02 02 03 05 02 02 04 00 02 01 02\nplain 4 1\nplain 5 2 3\nplain 5 1 3\nplain 3 1 2\nplain 0 3\nplain 6\n\
             plaincontext 3 2\nplaincontext 2 1\nplaincontext\nstages 3 2\nstages 1 2 3\nstages\nstages 1 4\nstages 0\n"
                .to_string(),
            "done\nsupported\nsupported\nunsupported\ninconsistent\nunsupported\nrefused 4\n\
             0 0 1 1 1 1\n2 2 2 2 2 2\n0 0 0 0 0 0\n0 2 3\n1 2 3 4\n2 2 3 4 5\n0 1 2 3\n1 0 1 2 3 4\n2 0 1 2 3 4 5\n0\nrefused 4\nbad line 15\n"
                .to_string(),
        ),
        script(
            "never a 3 by the plain path",
            "open 1 2\nadd 0 1\nadd 2 1\ncontext\nplaincontext\nadd 3\nstages\nstages 1\nplain 3\nplain 3 1\n".to_string(),
            "done\ndone\ndone\n0 3 3 0\n0 0 0 0\ndone\n0\n1 3\n0 1\n1 0 1 2 3\nsupported\ninconsistent\n".to_string(),
        ),
        script(
            "a bare list",
            "barestages 0 0\nrule 0 3\nrule 3 2\nrule 2 1\nrule 4 2\nrule 2 1 1\nbarestages 1 3 1\nbareask 1 3 4 1\nbareask 1 3 4\nbarecontext 1 3\nbarecontext 1 3 1\n\
             bareask 33 3 4\nbareask 1 97 4\nbareask 1 2 4 1\nbareask 1 3 5 1\nbareask 1 3 4 2\nbareask 1 3 4 32\nbareask 1 3 4 33\nlist\n"
                .to_string(),
            "0\n0 1\n1 1 2\n2 1 2 3 4\n3 0 1 2 3 4\ninconsistent\nunsupported\n0 0 0 0 0\n2 2 2 2 2\n\
             refused 3\nrefused 3\nrefused 4\nrefused 4\nrefused 4\nrefused 4\nbad line 18\ncase 0 0 0 0\n0 nogood\n"
                .to_string(),
        ),
        script(
            "a bare list, the first faulty item decides",
            "rule 1 2\nrule 1 1\nrule 1 0\nrule 9\nrule 1 1 1 1 1 1\nbareask 2 1 9 9\nbarecontext 1 1\nbarestages 33 0\n\
             forget\nrule 1 1 1 1 1 1\nbarecontext 2 2\nforget\nrule 0 0\nbarestages 2 2\nforget\nrule 3\nbareask 1 1 3\nbareask 2 1 3\n"
                .to_string(),
            "refused 17\nrefused 17\nrefused 3\nrefused 6\nrefused 5\nrefused 4\nsupported\n".to_string(),
        ),
    ]
}

/// Case files written by us: in order, each once, in the shortest form.
fn written() -> Vec<Named> {
    let listed = vec![3, 2, 4, 4, 1, 1, 4, 2, 2, 3, 5, 2, 2, 4, 0, 2, 1, 2];
    let ordered = vec![3, 2, 4, 0, 2, 1, 2, 4, 1, 1, 4, 2, 2, 3, 5, 2, 2, 4];
    vec![
        script(
            "the listed case, written",
            "load 03 02 04 04 01 01 04 02 02 03 05 02 02 04 00 02 01 02\nwrite\nwithdraw 4 1\nwrite\nwrite 1\n".to_string(),
            "done\n03 02 04 00 02 01 02 04 01 01 04 02 02 03 05 02 02 04\ndone\n03 02 03 00 02 01 02 04 02 02 03 05 02 02 04\nbad line 5\n"
                .to_string(),
        ),
        script(
            "written in order, 127 and 128 in their shortest form",
            "write\nopen 32 96\nwrite\nadd 128 127\nadd 127 5 3 4 3\nadd 127 32 1\nadd 127 31 2\nadd 127 128\nadd 127\nadd 128 127 127\nwrite\n".to_string(),
            "00 00 00\ndone\n20 60 00\ndone\ndone\ndone\ndone\ndone\ndone\nalready held\n\
             20 60 06 7f 00 7f 01 80 01 7f 02 01 20 7f 02 02 1f 7f 03 03 04 05 80 01 01 7f\n"
                .to_string(),
        ),
        rewriting("the listed case, rewritten", listed, &ordered, ""),
        rewriting("a canonical file, rewritten", ordered.clone(), &ordered, ""),
        rewriting("repeated records and supports, rewritten", vec![2, 1, 3, 3, 2, 2, 1, 3, 3, 1, 2, 1, 3, 0], &[2, 1, 2, 3, 0, 3, 2, 1, 2], ""),
        rewriting("nothing held, rewritten", vec![0, 0, 0], &[0, 0, 0], ""),
        rewriting("empty input, rewritten", vec![], &[], "refused 11 0\n"),
        rewriting("its own reason, rewritten", vec![1, 1, 2, 2, 1, 1, 2, 1, 2], &[], "refused 17 2\n"),
        rewriting("thirteen singles, rewritten", singles_case(1, 13, &[]), &[], "refused 8 13\n"),
        rewriting("4,097 bytes, rewritten", vec![0; 4097], &[], "refused 14 0\n"),
    ]
}
