//! What a store holds, and how numbers follow from it: read from the case file and the stage lines that the library writes.
use reasons::{Set, Store};

/// A justification: its supports rising.
#[derive(Clone, PartialEq, Eq)]
pub struct Rule {
    pub consequent: u32,
    pub supports: Vec<u32>,
}

pub struct Case {
    pub assumptions: u32,
    pub claims: u32,
    pub rules: Vec<Rule>,
}

impl Case {
    pub fn of(store: &Store) -> Case {
        let file = store.case_file().expect("a loaded store has the right shape");
        let mut numbers = Numbers(&file);
        let (assumptions, claims, count) = (numbers.next(), numbers.next(), numbers.next());
        let rules = (0..count)
            .map(|_| {
                let (consequent, supports) = (numbers.next(), numbers.next());
                Rule {
                    consequent,
                    supports: (0..supports).map(|_| numbers.next()).collect(),
                }
            })
            .collect();
        Case { assumptions, claims, rules }
    }

    pub fn top(&self) -> u32 {
        self.assumptions + self.claims
    }
}

/// The numbers of a file that the library wrote, in groups of seven bits, low group first.
struct Numbers<'a>(&'a [u8]);

impl Numbers<'_> {
    fn next(&mut self) -> u32 {
        let low = self.byte();
        if low < 128 {
            return low;
        }
        low - 128 + 128 * self.byte()
    }

    fn byte(&mut self) -> u32 {
        let (first, rest) = self.0.split_first().expect("the library wrote the whole file");
        self.0 = rest;
        u32::from(*first)
    }
}

/// What follows from a set, stage by stage: the library's lines, and the numbers of each.
pub struct Stages {
    pub lines: Vec<String>,
    pub numbers: Vec<Vec<u32>>,
}

impl Stages {
    pub fn of(store: &Store, set: Set) -> Stages {
        let text = store.stages(set).expect("a set of the case's own assumptions");
        let lines: Vec<String> = text.lines().map(str::to_string).collect();
        let numbers = lines
            .iter()
            .map(|line| line.split(' ').skip(1).map(|n| n.parse().expect("the library writes numbers")).collect())
            .collect();
        Stages { lines, numbers }
    }

    /// The first stage at which n follows.
    pub fn since(&self, n: u32) -> Option<usize> {
        self.numbers.iter().position(|stage| stage.contains(&n))
    }
}
