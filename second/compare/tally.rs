//! How often each reply came, the table, and the quotas.

use crate::program::case_file::Fault;
use crate::program::listing::Listed;
use crate::program::script::{Call, Reply};
use std::collections::BTreeMap;

/// Fewer of a reply that can occur is a failure.
const QUOTA: u32 = 150;

/// A column of the table: its head, and the replies that can occur there.
struct Column {
    head: &'static str,
    replies: &'static [usize],
}

const FILES: usize = 0;
const LOADS: usize = 1;
const CALLS: usize = 2;
const WITHDRAWALS: usize = 3;
const SEASONS: usize = 4;
const PLAIN: usize = 5;
const BARE: usize = 6;
const REWRITES: usize = 7;
const COLUMNS: [Column; 8] = [
    Column { head: "files", replies: &[0, 3, 4, 5, 6, 7, 8, 9, 11, 12, 13, 14, 17] },
    Column { head: "loads", replies: &[0, 3, 4, 5, 6, 7, 8, 9, 11, 12, 13, 14, 17] },
    Column { head: "calls", replies: &[0, 1, 3, 4, 5, 6, 7, 8, 9, 16, 17] },
    Column { head: "withdraw", replies: &[0, 4, 5, 6, 8, 9, 17, 18] },
    Column { head: "season", replies: &[0, 1, 4, 5, 6, 7, 8, 9, 17] },
    Column { head: "plain", replies: &[0, 4] },
    Column { head: "bare", replies: &[0, 3, 4, 5, 6, 17] },
    Column { head: "rewrite", replies: &[0, 3, 4, 5, 6, 7, 8, 9, 11, 12, 13, 14, 17] },
];

const MEANINGS: [&str; 19] = [
    "done, or listed",
    "already held",
    "wrong shape of store",
    "A or M too large",
    "a number too large",
    "falsity as a support",
    "more than 4 supports",
    "more than 256 held",
    "a label over 12",
    "nogoods over 32",
    "(no meaning)",
    "file ends early",
    "bad number form",
    "bytes after the end",
    "more than 4,096 bytes",
    "buffer too short",
    "no member there",
    "its own reason",
    "not held",
];

/// What else has to come, by name.
const KINDS: &[&str] = &[
    "bad line",
    "withdrawn after being added, the listing as before",
    "added in a freed place of 256",
    "depth above 100",
    "as deep as there are different consequents",
    "supported by the empty set",
    "supported, several members within",
    "supported, one member within",
    "inconsistent by the empty set",
    "inconsistent, several nogoods within",
    "inconsistent, one nogood within",
    "falsity unsupported",
    "unsupported",
    "line of nogoods",
    "line of a contradicted assumption",
    "line contradicted only above the depth",
    "line contradicted",
    "line unsupported",
    "line supported",
    "context of 2s",
    "context with 1s and 3s",
    "context with 3s and no 1",
    "context with 1s and no 3",
    "context of 0s",
    "bad line, the list in hand is full",
    "season of no items",
    "season of 256 items",
    "season",
    "plain: supported",
    "plain: unsupported",
    "plain: inconsistent",
    "plain: context of 2s",
    "plain: context with 1s",
    "plain: context of 0s",
    "stage 0 alone",
    "2 to 11 stages",
    "12 stages or more",
    "stages that end with falsity",
    "stages that go on after falsity",
    "plain held to ask",
    "plaincontext held to context",
    "bareask held to ask",
    "barecontext held to context",
    "barestages held to stages",
    "written: nothing held",
    "written: a count of one byte",
    "written: a count of two bytes",
    "written: 256 held",
    "the file written by a script lists alike",
    "the file written lists alike",
    "a file written is written again as it is",
];

#[derive(Default)]
pub struct Tally {
    /// In each column, how often each reply came.
    counts: [[u32; MEANINGS.len()]; COLUMNS.len()],
    /// The same of those decided at a stage above 1.
    late: [[u32; MEANINGS.len()]; COLUMNS.len()],
    kinds: BTreeMap<&'static str, u32>,
    too_long: u32,
    /// The greatest depth of a case listed.
    deepest: u32,
}

impl Tally {
    pub fn count_file(&mut self, listed: &Listed) {
        self.count(FILES, listed.number, listed.stage);
        self.deepest = self.deepest.max(listed.depth);
        listed.kinds.iter().for_each(|kind| self.count_kind(kind));
        if listed.depth > 100 {
            self.count_kind("depth above 100");
        }
        if listed.consequents > 0 && listed.depth == listed.consequents {
            self.count_kind("as deep as there are different consequents");
        }
    }

    pub fn count_script(&mut self, replies: &[Reply]) {
        for reply in replies {
            if !reply.kind.is_empty() {
                self.count_kind(reply.kind);
            }
            match reply.call {
                Call::BadLine => self.count_kind("bad line"),
                Call::TooLong => self.too_long += 1,
                Call::Load => self.count(LOADS, reply.number, reply.stage),
                Call::Season => reply.items.iter().for_each(|&number| self.count(SEASONS, number, 0)),
                Call::Plain | Call::PlainContext | Call::Stages => self.count(PLAIN, reply.number, 0),
                Call::BareAsk | Call::BareContext | Call::BareStages => self.count(BARE, reply.number, 0),
                Call::Withdraw => self.count(WITHDRAWALS, reply.number, reply.stage),
                _ => self.count(CALLS, reply.number, reply.stage),
            }
        }
        replies.windows(4).for_each(|four| self.count_there_and_back(four));
        replies.windows(3).for_each(|three| self.count_freed_place(three));
    }

    pub fn count_rewriting(&mut self, written: &Result<Vec<u8>, Fault>) {
        let number = written.as_ref().map_or_else(|fault| fault.refusal.number, |_| 0);
        self.count(REWRITES, number, 0);
    }

    fn count(&mut self, column: usize, number: u32, stage: u32) {
        self.counts[column][number as usize] += 1;
        if stage > 1 {
            self.late[column][number as usize] += 1;
        }
    }

    pub fn count_kind(&mut self, kind: &'static str) {
        *self.kinds.entry(kind).or_default() += 1;
    }

    /// A listing, one added, one withdrawn, and the same listing again.
    fn count_there_and_back(&mut self, four: &[Reply]) {
        let calls = [Call::List, Call::Add, Call::Withdraw, Call::List];
        let done = four.iter().zip(calls).all(|(reply, call)| reply.call == call && reply.number == 0);
        if done && four[0].text == four[3].text {
            self.count_kind("withdrawn after being added, the listing as before");
        }
    }

    /// A refusal for want of a place, then one withdrawn and one added.
    fn count_freed_place(&mut self, three: &[Reply]) {
        let calls = [(Call::Add, 7), (Call::Withdraw, 0), (Call::Add, 0)];
        if three.iter().zip(calls).all(|(reply, wanted)| (reply.call, reply.number) == wanted) {
            self.count_kind("added in a freed place of 256");
        }
    }

    pub fn take_in(&mut self, other: &Tally) {
        for column in 0..COLUMNS.len() {
            for i in 0..MEANINGS.len() {
                self.counts[column][i] += other.counts[column][i];
                self.late[column][i] += other.late[column][i];
            }
        }
        for (kind, count) in &other.kinds {
            *self.kinds.entry(kind).or_default() += count;
        }
        self.too_long += other.too_long;
        self.deepest = self.deepest.max(other.deepest);
    }

    pub fn print(&self) {
        let heads: String = COLUMNS.iter().map(|column| format!(" {:>9}", column.head)).collect();
        println!("{:<25}{heads}", "reply");
        for (i, meaning) in MEANINGS.iter().enumerate() {
            println!("{:<25}{}", format!("{i:>2} {meaning}"), self.row(&self.counts, i));
        }
        for i in [8, 9] {
            println!("{:<25}{}", format!("{i:>2} at a stage above 1"), self.row(&self.late, i));
        }
        KINDS.iter().for_each(|kind| println!("{kind}: {}", self.kind(kind)));
        println!("scripts too long: {}", self.too_long);
        println!("deepest file listed: depth {}", self.deepest);
    }

    fn row(&self, counts: &[[u32; MEANINGS.len()]; COLUMNS.len()], i: usize) -> String {
        let cell = |column: usize| match counts[column][i] {
            0 if !COLUMNS[column].replies.contains(&i) => "-".to_string(),
            count => count.to_string(),
        };
        (0..COLUMNS.len()).map(|column| format!(" {:>9}", cell(column))).collect()
    }

    fn kind(&self, kind: &str) -> u32 {
        self.kinds.get(kind).copied().unwrap_or(0)
    }

    /// What there is too little of.
    pub fn too_few(&self) -> Vec<String> {
        let mut few = Vec::new();
        let mut want = |what: String, count: u32| {
            if count < QUOTA {
                few.push(format!("{what} came {count} times"));
            }
        };
        for (place, Column { head, replies }) in COLUMNS.iter().enumerate() {
            replies.iter().for_each(|&i| want(format!("reply {i} in {head}"), self.counts[place][i]));
            // The stage behind the replies of the later columns is not counted.
            for &i in replies.iter().filter(|&&i| (i == 8 || i == 9) && place < SEASONS) {
                want(format!("reply {i} above stage 1 in {head}"), self.late[place][i]);
            }
        }
        KINDS.iter().for_each(|kind| want(kind.to_string(), self.kind(kind)));
        if self.counts[FILES][0] * 3 < self.counts[FILES].iter().sum() {
            few.push(format!("only {} files were listed", self.counts[FILES][0]));
        }
        if self.deepest < 129 {
            few.push(format!("the deepest case has depth {}", self.deepest));
        }
        few
    }
}
