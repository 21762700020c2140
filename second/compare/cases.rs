//! Cases of many sizes and shapes, as lists of records.

use crate::program::random::Random;
use std::collections::HashSet;

/// A record as a file has it: consequent, and supports in any order with
/// repeats.
pub type Record = (u32, Vec<u32>);

#[derive(Clone, Debug)]
pub struct Case {
    pub a: u32,
    pub m: u32,
    pub records: Vec<Record>,
}

impl Case {
    /// The case as a file.
    pub fn bytes(&self) -> Vec<u8> {
        let mut bytes = header(self.a, self.m, self.records.len() as u32);
        for (consequent, supports) in &self.records {
            bytes.extend(number(*consequent));
            bytes.extend(number(supports.len() as u32));
            supports.iter().for_each(|&n| bytes.extend(number(n)));
        }
        bytes
    }

    pub fn last(&self) -> u32 {
        self.a + self.m
    }
}

/// A number up to 16,383 in groups of seven bits.
pub fn number(n: u32) -> Vec<u8> {
    if n < 128 { vec![n as u8] } else { vec![128 + (n % 128) as u8, (n / 128) as u8] }
}

pub fn header(a: u32, m: u32, count: u32) -> Vec<u8> {
    [number(a), number(m), number(count)].concat()
}

// ---------------------------------------------------------------- random

/// How often a random case has what; drawn anew for each case.
struct Rates {
    falsity: u32,
    premises: u32,
    any_consequent: u32,
    from_claims: u32,
    fewest: u32,
    most: u32,
}

impl Rates {
    fn drawn(r: &mut Random) -> Rates {
        Rates {
            falsity: *r.pick(&[0, 5, 15, 40]),
            premises: *r.pick(&[0, 2, 8]),
            any_consequent: *r.pick(&[0, 5, 25]),
            from_claims: *r.pick(&[10, 30, 60, 90]),
            fewest: *r.pick(&[1, 1, 2]),
            most: *r.pick(&[2, 3, 4]),
        }
    }
}

pub fn random_small(r: &mut Random) -> Case {
    let (a, m) = (r.from_to(0, 10), r.from_to(0, 14));
    let count = r.from_to(0, 24);
    random_case(r, a, m, count)
}

pub fn random_middle(r: &mut Random) -> Case {
    let (a, m) = (r.from_to(4, 32), r.from_to(4, 48));
    let count = r.from_to(4, 60);
    random_case(r, a, m, count)
}

pub fn random_large(r: &mut Random) -> Case {
    let (a, m) = (r.from_to(16, 32), r.from_to(40, 96));
    let count = r.from_to(40, 256);
    random_case(r, a, m, count)
}

/// Few assumptions, few claims, many records: lists come near their limits.
pub fn random_crowded(r: &mut Random) -> Case {
    let (a, m) = (r.from_to(6, 12), r.from_to(1, 6));
    let count = r.from_to(20, 110);
    random_case(r, a, m, count)
}

fn random_case(r: &mut Random, a: u32, m: u32, count: u32) -> Case {
    let rates = Rates::drawn(r);
    let mut records: Vec<Record> = Vec::new();
    for _ in 0..count {
        if !records.is_empty() && r.chance(3) {
            records.push(r.pick(&records).clone());
        } else {
            records.push(random_record(r, a, m, &rates));
        }
    }
    if a + m > 0 && r.chance(4) {
        let place = r.from_to(0, count) as usize;
        records.insert(place, own_support(r, a + m));
        records.truncate(256);
    }
    Case { a, m, records }
}

/// A few tries for one that does not name its own consequent; at last that
/// support is left out.
fn random_record(r: &mut Random, a: u32, m: u32, rates: &Rates) -> Record {
    for _ in 0..4 {
        let (consequent, supports) = one_try(r, a, m, rates);
        if !supports.contains(&consequent) {
            return (consequent, supports);
        }
    }
    let (consequent, mut supports) = one_try(r, a, m, rates);
    supports.retain(|&n| n != consequent);
    (consequent, supports)
}

fn one_try(r: &mut Random, a: u32, m: u32, rates: &Rates) -> Record {
    let consequent = if r.chance(rates.falsity) {
        0
    } else if m == 0 || r.chance(rates.any_consequent) {
        r.from_to(0, a + m)
    } else {
        r.from_to(a + 1, a + m)
    };
    let none = a + m == 0 || r.chance(rates.premises);
    let count = if none { 0 } else { r.from_to(rates.fewest, rates.most) };
    (consequent, (0..count).map(|_| random_support(r, a, m, rates.from_claims)).collect())
}

fn random_support(r: &mut Random, a: u32, m: u32, from_claims: u32) -> u32 {
    if a == 0 || (m > 0 && r.chance(from_claims)) {
        r.from_to(a + 1, a + m)
    } else {
        r.from_to(1, a)
    }
}

/// One record with numbers in range, not its own reason, else of any kind.
pub fn any_record(r: &mut Random, a: u32, m: u32) -> Record {
    let rates = Rates::drawn(r);
    random_record(r, a, m, &rates)
}

// ---------------------------------------------------------------- built

/// A case under construction: claims are handed out one by one.
struct Builder {
    a: u32,
    claims: u32,
    records: Vec<Record>,
}

impl Builder {
    fn new(a: u32) -> Builder {
        Builder { a, claims: 0, records: Vec::new() }
    }

    fn claim(&mut self) -> u32 {
        self.claims += 1;
        self.a + self.claims
    }

    fn rule(&mut self, consequent: u32, supports: &[u32]) {
        self.records.push((consequent, supports.to_vec()));
    }

    /// A claim that follows from n alone, `delay` stages later; n itself for 0.
    fn delayed(&mut self, n: u32, delay: u32) -> u32 {
        let mut last = n;
        for _ in 0..delay {
            let claim = self.claim();
            self.rule(claim, &[last]);
            last = claim;
        }
        last
    }

    /// A claim supported by each of these numbers alone.
    fn any_of(&mut self, numbers: &[u32]) -> u32 {
        let claim = self.claim();
        numbers.iter().for_each(|&n| self.rule(claim, &[n]));
        claim
    }

    /// Claims that each follow from one part of the assumptions 1, 2, ... cut
    /// into parts of these sizes.
    fn one_of_each_part(&mut self, sizes: &[u32]) -> Vec<u32> {
        let mut first = 1;
        let mut claims = Vec::new();
        for &size in sizes {
            let part: Vec<u32> = (first..first + size).collect();
            claims.push(self.any_of(&part));
            first += size;
        }
        claims
    }

    fn finish(self, r: &mut Random) -> Case {
        assert!(self.claims <= 96);
        let spare = r.from_to(0, (96 - self.claims).min(2));
        let mut case = Case { a: self.a, m: self.claims + spare, records: self.records };
        if case.records.len() < 250 && r.chance(2) {
            case.records.push(own_support(r, case.last()));
        }
        scramble(r, &mut case);
        case
    }
}

/// Other numbers for assumptions and claims, another order of records and
/// supports, some records twice, some supports twice.
pub fn scramble(r: &mut Random, case: &mut Case) {
    let mut new_number: Vec<u32> = (0..=case.last()).collect();
    r.shuffle(&mut new_number[1..=case.a as usize]);
    r.shuffle(&mut new_number[case.a as usize + 1..]);
    for (consequent, supports) in &mut case.records {
        *consequent = new_number[*consequent as usize];
        supports.iter_mut().for_each(|n| *n = new_number[*n as usize]);
    }
    reorder(r, case);
}

/// The same justifications in another order, written another way.
pub fn reorder(r: &mut Random, case: &mut Case) {
    if !case.records.is_empty() && case.records.len() < 250 && r.chance(25) {
        case.records.push(r.pick(&case.records).clone());
    }
    r.shuffle(&mut case.records);
    for (_, supports) in &mut case.records {
        if r.chance(10) {
            repeat_one(r, supports);
        }
        r.shuffle(supports);
    }
}

/// One of the supports once more, where there is room.
fn repeat_one(r: &mut Random, supports: &mut Vec<u32>) {
    if !supports.is_empty() && supports.len() < 4 {
        supports.push(*r.pick(supports));
    }
}

/// The same justification written another way.
pub fn respelled(r: &mut Random, record: &Record) -> Record {
    let (consequent, mut supports) = record.clone();
    for _ in 0..*r.pick(&[0, 0, 1, 2]) {
        repeat_one(r, &mut supports);
    }
    r.shuffle(&mut supports);
    (consequent, supports)
}

/// A long chain through claims and assumptions.
pub fn chain(r: &mut Random) -> Case {
    match r.from_to(0, 9) {
        0..=3 => longest_chain(r),
        4..=5 => gated_chain(r),
        _ => free_chain(r),
    }
}

/// The chain through these numbers, each following from the one before it.
fn chain_through(r: &mut Random, a: u32, m: u32, order: &[u32], begin: &[u32], falsity: bool) -> Case {
    let mut records = vec![(order[0], begin.to_vec())];
    for pair in order.windows(2) {
        records.push((pair[1], vec![pair[0]]));
    }
    if falsity {
        records.push((0, vec![order[order.len() - 1]]));
    }
    if r.chance(20) {
        // A way back or a short cut.
        let (x, y) = (*r.pick(order), *r.pick(order));
        records.push((x, vec![y]));
    }
    let mut case = Case { a, m, records };
    if r.chance(50) {
        scramble(r, &mut case);
    }
    case
}

/// Some of the assumptions at any places of the chain.
fn free_chain(r: &mut Random) -> Case {
    let (a, m) = (r.from_to(0, 32), r.from_to(1, 96));
    let on_chain = r.from_to(0, a.min(14));
    let mut order: Vec<u32> = (1..=on_chain).chain(a + 1..=a + m).collect();
    r.shuffle(&mut order);
    let begin = if a == 0 || r.chance(60) { vec![] } else { vec![r.from_to(1, a)] };
    let falsity = r.chance(50);
    chain_through(r, a, m, &order, &begin, falsity)
}

/// From a premise through all 96 claims and as many assumptions as there is
/// room for, mostly 32, to falsity: depth 129 with 32.
fn longest_chain(r: &mut Random) -> Case {
    let (a, m) = (32, 96);
    let places = assumption_places(r);
    let mut order = Vec::new();
    let (mut assumption, mut claim) = (0, a);
    while claim < a + m || assumption < places.len() as u32 {
        let place = order.len() as u32 + 1;
        let next = if places.contains(&place) || claim == a + m { &mut assumption } else { &mut claim };
        *next += 1;
        order.push(*next);
    }
    chain_through(r, a, m, &order, &[], true)
}

/// At stage s the number at place q has in its label the assumptions at places
/// q-s to q, until they are known to end in falsity, and none of the places
/// above 128-s. So the places from 2q-128 to q may hold 12 assumptions.
fn assumption_places(r: &mut Random) -> Vec<u32> {
    let mut late: Vec<u32> = (r.from_to(100, 108)..=128).collect();
    let mut early: Vec<u32> = (1..=99).collect();
    r.shuffle(&mut late);
    r.shuffle(&mut early);
    let mut places: Vec<u32> = Vec::new();
    for place in late.into_iter().chain(early) {
        places.push(place);
        let room = (1..=128).all(|q: u32| {
            places.iter().filter(|&&p| p <= q && p + 128 >= 2 * q).count() <= 12
        });
        if !room {
            places.pop();
        }
        if places.len() == 32 {
            break;
        }
    }
    places
}

/// A few assumptions on the chain, and after each of them a claim that needs
/// the claim before it as well: a set of t of them is t stages ahead.
fn gated_chain(r: &mut Random) -> Case {
    let m = r.from_to(8, 96);
    let a = r.from_to(1, 6);
    let mut claims: Vec<u32> = (a + 1..a + m).collect();
    r.shuffle(&mut claims);
    let mut records = vec![(a + 1, vec![])];
    for claim in a + 1..a + m {
        match claims[..a as usize].iter().position(|&c| c == claim) {
            None => records.push((claim + 1, vec![claim])),
            Some(place) => {
                let assumption = place as u32 + 1;
                records.push((assumption, vec![claim]));
                records.push((claim + 1, vec![claim, assumption]));
            }
        }
    }
    if r.chance(60) {
        records.push((0, vec![a + m]));
    }
    let mut case = Case { a, m, records };
    scramble(r, &mut case);
    case
}

/// A label of 11 to 14 members, or more, at a stage from 1 to 4.
pub fn near_label_limit(r: &mut Random) -> Case {
    let mut b = Builder::new(r.from_to(15, 24));
    let delay = r.from_to(0, 3);
    long_label(r, &mut b, delay);
    b.finish(r)
}

fn long_label(r: &mut Random, b: &mut Builder, delay: u32) {
    match r.from_to(0, 3) {
        0 => label_of_singles(r, b, delay),
        1 => label_of_products(r, b, delay),
        2 => label_of_pairs(r, b, delay),
        _ => labels_that_share(r, b, delay),
    }
}

/// Claims supported by each of 11 to 14 assumptions; at times one member falls
/// to a nogood, or all fall to a smaller set, at the same stage or another.
fn label_of_singles(r: &mut Random, b: &mut Builder, delay: u32) {
    let members = r.from_to(11, 14);
    let numbers: Vec<u32> = (1..=members).map(|k| b.delayed(k, delay)).collect();
    let claim = b.any_of(&numbers);
    if r.chance(30) {
        let second = b.claim();
        numbers.iter().for_each(|&n| b.rule(second, &[n]));
    }
    if r.chance(40) {
        let struck = r.from_to(1, members);
        let late = r.from_to(0, delay);
        let number = b.delayed(struck, late);
        b.rule(0, &[number]);
    }
    if r.chance(25) {
        smaller_set(r, b, claim, delay);
    }
}

/// The claim also follows from nothing, some stages later than stage 1.
fn smaller_set(r: &mut Random, b: &mut Builder, claim: u32, delay: u32) {
    let later = r.from_to(0, delay + 1);
    from_nothing(b, claim, later);
}

/// The number follows from nothing, `later` stages later than stage 1.
fn from_nothing(b: &mut Builder, n: u32, later: u32) {
    if later == 0 {
        return b.rule(n, &[]);
    }
    let premise = b.claim();
    b.rule(premise, &[]);
    let last = b.delayed(premise, later - 1);
    b.rule(n, &[last]);
}

/// A claim from two or three others whose labels multiply to 9 to 18 members.
fn label_of_products(r: &mut Random, b: &mut Builder, delay: u32) {
    let sizes: &[u32] = *r.pick(&[
        &[3, 4][..], &[2, 6], &[2, 7], &[3, 5], &[4, 4], &[12, 1], &[13, 1], &[11, 1],
        &[2, 2, 3], &[2, 2, 4], &[3, 3, 2], &[3, 3], &[5, 2], &[2, 2, 3, 1], &[2, 2, 2, 2],
    ]);
    let parts = b.one_of_each_part(sizes);
    let claim = b.claim();
    b.rule(claim, &parts);
    if r.chance(40) {
        // One or two more members of their own.
        for k in 14..=r.from_to(14, 15) {
            let number = b.delayed(k, delay);
            b.rule(claim, &[number]);
        }
    }
    if r.chance(30) {
        let (x, y) = (r.from_to(1, 5), r.from_to(1, 5));
        b.rule(0, &[x, y]);
    }
    if r.chance(15) {
        smaller_set(r, b, claim, delay);
    }
}

/// Two or three claims that each have members of their own, and all of them
/// those of one more claim: several labels come over the limit at one stage.
fn labels_that_share(r: &mut Random, b: &mut Builder, delay: u32) {
    let common = r.from_to(4, 8);
    let numbers: Vec<u32> = (1..=common).collect();
    let source = b.any_of(&numbers);
    let last = b.delayed(source, delay);
    for _ in 0..r.from_to(2, 3) {
        let claim = b.claim();
        b.rule(claim, &[last]);
        let own = r.from_to(11, 14) - common;
        (common + 1..=common + own).for_each(|k| b.rule(claim, &[k]));
    }
}

fn label_of_pairs(r: &mut Random, b: &mut Builder, delay: u32) {
    let claim = b.claim();
    let last = r.from_to(6, 10);
    let numbers: Vec<u32> = (1..=last).map(|k| b.delayed(k, delay)).collect();
    let pairs = some_pairs(r, &numbers, 11, 14);
    pairs.iter().for_each(|pair| b.rule(claim, pair));
    if r.chance(30) {
        let struck = r.pick(&pairs).clone();
        b.rule(0, &struck);
    }
    if r.chance(15) {
        smaller_set(r, b, claim, delay);
    }
}

/// Between `low` and `high` different pairs of these numbers.
fn some_pairs(r: &mut Random, numbers: &[u32], low: u32, high: u32) -> Vec<[u32; 2]> {
    let mut pairs = Vec::new();
    for (i, &x) in numbers.iter().enumerate() {
        numbers[i + 1..].iter().for_each(|&y| pairs.push([x, y]));
    }
    r.shuffle(&mut pairs);
    pairs.truncate(r.from_to(low, high) as usize);
    pairs
}

/// 30 to 35 nogoods, or more, at a stage from 1 to 4.
pub fn near_nogood_limit(r: &mut Random) -> Case {
    let mut b = Builder::new(r.from_to(14, 24));
    let delay = r.from_to(0, 3);
    many_nogoods(r, &mut b, delay);
    b.finish(r)
}

fn many_nogoods(r: &mut Random, b: &mut Builder, delay: u32) {
    match r.from_to(0, 2) {
        0 => nogoods_of_pairs(r, b, delay),
        1 => nogoods_of_triples(r, b, delay),
        _ => nogoods_of_products(r, b),
    }
    if r.chance(25) {
        // A single nogood takes the place of some of the others.
        let k = r.from_to(1, b.a);
        let late = r.from_to(0, delay + 1);
        let number = b.delayed(k, late);
        b.rule(0, &[number]);
    }
}

fn nogoods_of_pairs(r: &mut Random, b: &mut Builder, delay: u32) {
    let last = r.from_to(9, 12);
    let numbers: Vec<u32> = (1..=last).map(|k| b.delayed(k, delay)).collect();
    for pair in some_pairs(r, &numbers, 30, 35) {
        b.rule(0, &pair);
    }
}

fn nogoods_of_triples(r: &mut Random, b: &mut Builder, delay: u32) {
    let last = r.from_to(8, 10);
    let numbers: Vec<u32> = (1..=last).map(|k| b.delayed(k, delay)).collect();
    let mut triples = Vec::new();
    for (i, &x) in numbers.iter().enumerate() {
        for (j, &y) in numbers.iter().enumerate().skip(i + 1) {
            numbers[j + 1..].iter().for_each(|&z| triples.push([x, y, z]));
        }
    }
    r.shuffle(&mut triples);
    triples.truncate(r.from_to(30, 35) as usize);
    triples.iter().for_each(|triple| b.rule(0, triple));
}

/// Falsity from two to four claims whose labels multiply to about 32.
fn nogoods_of_products(r: &mut Random, b: &mut Builder) {
    let sizes: &[u32] = *r.pick(&[
        &[4, 8][..], &[3, 11], &[3, 10], &[5, 6], &[6, 6], &[5, 7], &[4, 7],
        &[2, 4, 4], &[3, 3, 4], &[2, 3, 5], &[2, 2, 2, 4], &[2, 2, 3, 3],
    ]);
    let parts = b.one_of_each_part(sizes);
    b.rule(0, &parts);
    for k in 1..=r.from_to(0, 3) {
        b.rule(0, &[b.a, b.a - k]);
    }
}

/// Nogoods and a label both near their limits, at the same stage or not.
pub fn near_both_limits(r: &mut Random) -> Case {
    let mut b = Builder::new(r.from_to(16, 26));
    let delay = r.from_to(0, 1);
    let other = if r.chance(60) { delay } else { r.from_to(0, 1) };
    long_label(r, &mut b, delay);
    many_nogoods(r, &mut b, other);
    b.finish(r)
}

/// A list that some rules keep short: without one of them it comes to its
/// limit or over it, at a stage from 1 to 4.
pub fn kept_short(r: &mut Random) -> Case {
    let mut b = Builder::new(r.from_to(15, 24));
    let delay = *r.pick(&[0, 1, 1, 2, 2, 3]);
    match r.from_to(0, 3) {
        0 => label_short_by_premise(r, &mut b, delay),
        1 => label_short_by_nogoods(r, &mut b, delay),
        2 => nogoods_short_by_premise(r, &mut b, delay),
        _ => nogoods_short_by_single(r, &mut b, delay),
    }
    b.finish(r)
}

/// A claim from each of 12 to 14 assumptions, and no later from nothing.
fn label_short_by_premise(r: &mut Random, b: &mut Builder, delay: u32) {
    let members = r.from_to(12, 14);
    let numbers: Vec<u32> = (1..=members).map(|k| b.delayed(k, delay)).collect();
    let claim = b.any_of(&numbers);
    let later = r.from_to(0, delay);
    from_nothing(b, claim, later);
}

/// A claim from each of some assumptions, of which nogoods leave 11 or 12.
fn label_short_by_nogoods(r: &mut Random, b: &mut Builder, delay: u32) {
    let struck = r.from_to(1, 3);
    let members = r.from_to(11, 12) + struck;
    let numbers: Vec<u32> = (1..=members).map(|k| b.delayed(k, delay)).collect();
    b.any_of(&numbers);
    for k in 1..=struck {
        let late = r.from_to(0, delay);
        let number = b.delayed(k, late);
        b.rule(0, &[number]);
    }
}

/// Falsity from 32 to 36 pairs, and no later from nothing.
fn nogoods_short_by_premise(r: &mut Random, b: &mut Builder, delay: u32) {
    let numbers: Vec<u32> = (1..=9).map(|k| b.delayed(k, delay)).collect();
    some_pairs(r, &numbers, 32, 36).iter().for_each(|pair| b.rule(0, pair));
    let later = r.from_to(0, delay);
    from_nothing(b, 0, later);
}

/// Falsity from 32 to 36 pairs, and no later from one of the assumptions.
fn nogoods_short_by_single(r: &mut Random, b: &mut Builder, delay: u32) {
    let numbers: Vec<u32> = (1..=9).map(|k| b.delayed(k, delay)).collect();
    some_pairs(r, &numbers, 32, 36).iter().for_each(|pair| b.rule(0, pair));
    let late = r.from_to(0, delay);
    let number = b.delayed(1, late);
    b.rule(0, &[number]);
}

/// Many joins, few members: a claim (or falsity) from claims with long labels,
/// where most joins fall to smaller sets, to nogoods or to the last support.
pub fn long_working_list(r: &mut Random) -> Case {
    let sizes: &[u32] = *r.pick(&[
        &[12, 12][..], &[8, 8, 8], &[7, 7, 7], &[4, 4, 4], &[12, 12, 8], &[10, 10, 10],
        &[5, 5, 5, 5], &[6, 6, 6, 6], &[8, 8, 8, 8],
    ]);
    let mut b = Builder::new(r.from_to(sizes.iter().sum(), 32));
    let parts = b.one_of_each_part(sizes);
    let consequent = if r.chance(30) { 0 } else { b.claim() };
    match r.from_to(0, 3) {
        0 => fall_to_nothing(&mut b, consequent, &parts),
        1 => fall_to_nogoods(r, &mut b, consequent, &parts, sizes),
        2 => fall_to_singles(r, &mut b, consequent, &parts, sizes[0]),
        _ => fall_to_last_support(r, &mut b, consequent, &parts, sizes),
    }
    b.finish(r)
}

/// The consequent also follows from as many premises, at the same stage.
fn fall_to_nothing(b: &mut Builder, consequent: u32, parts: &[u32]) {
    let premises: Vec<u32> = parts.iter().map(|_| b.claim()).collect();
    premises.iter().for_each(|&premise| b.rule(premise, &[]));
    b.rule(consequent, parts);
    b.rule(consequent, &premises);
}

/// Nogoods leave only one to three assumptions of each part; most are found
/// at the stage at which the joins are made.
fn fall_to_nogoods(r: &mut Random, b: &mut Builder, consequent: u32, parts: &[u32], sizes: &[u32]) {
    b.rule(consequent, parts);
    let mut first = 1;
    for &size in sizes {
        let kept = r.from_to(1, 3);
        for k in first + kept..first + size {
            let late = if r.chance(80) { 1 } else { 0 };
            let number = b.delayed(k, late);
            b.rule(0, &[number]);
        }
        first += size;
    }
}

/// Each assumption of the first part is enough by itself, by a rule with as
/// many supports as the other has parts.
fn fall_to_singles(r: &mut Random, b: &mut Builder, consequent: u32, parts: &[u32], size: u32) {
    b.rule(consequent, parts);
    for k in 1..=size {
        if r.chance(50) {
            let number = b.delayed(k, 1);
            b.rule(consequent, &[number]);
        } else {
            let claims: Vec<u32> = parts.iter().map(|_| b.delayed(k, 1)).collect();
            b.rule(consequent, &claims);
        }
    }
}

/// One more support, whose only member has all the assumptions of some parts
/// in it: the joins that differ in those parts alone come to one.
fn fall_to_last_support(r: &mut Random, b: &mut Builder, consequent: u32, parts: &[u32], sizes: &[u32]) {
    let left_free = r.from_to(0, sizes.len() as u32);
    let mut numbers = Vec::new();
    let mut first = 1;
    for (i, &size) in sizes.iter().enumerate() {
        if i as u32 != left_free {
            numbers.extend(first..first + size);
        }
        first += size;
    }
    while numbers.len() > 1 {
        numbers = numbers.chunks(4).map(|few| all_of(b, few)).collect();
    }
    let parts = &parts[..parts.len().min(3)];
    b.rule(consequent, &[parts, &numbers].concat());
}

/// A claim supported by all of these numbers together.
fn all_of(b: &mut Builder, numbers: &[u32]) -> u32 {
    let claim = b.claim();
    b.rule(claim, numbers);
    claim
}

/// `count` different justifications with short labels.
pub fn many_records(r: &mut Random, count: u32) -> Case {
    let (a, m) = (32, r.from_to(60, 96));
    let mut records: Vec<Record> = Vec::new();
    let mut there = HashSet::new();
    let (grounded, next) = (a + m / 3, a + m / 2);
    while records.len() < count as usize {
        let record = match r.from_to(0, 9) {
            0..=1 => (r.from_to(a + 1, grounded), vec![r.from_to(1, a), r.from_to(1, a)]),
            2 => (r.from_to(grounded + 1, next), vec![r.from_to(a + 1, grounded)]),
            _ => floating(r, a, m),
        };
        let crowded = record.0 <= grounded && records.iter().filter(|x| x.0 == record.0).count() > 3;
        if !crowded && there.insert(as_set(&record)) {
            records.push(record);
        }
    }
    Case { a, m, records }
}

/// A justification for one of the claims in the upper half that needs another
/// one of them: those with no other justifications follow from nothing at all.
pub fn floating(r: &mut Random, a: u32, m: u32) -> Record {
    let upper = r.from_to(a + m / 2 + 1, a + m - 1);
    let (consequent, other) = if r.chance(50) { (upper, upper + 1) } else { (a + m, upper) };
    let mut supports = vec![other];
    for _ in 0..r.from_to(0, 3) {
        supports.push(r.from_to(1, a + m));
    }
    supports.retain(|&n| n != consequent);
    r.shuffle(&mut supports);
    (consequent, supports)
}

/// A justification that names its own consequent, alone or among others.
pub fn own_support(r: &mut Random, last: u32) -> Record {
    let consequent = r.from_to(1, last);
    let mut supports = vec![consequent];
    for _ in 0..r.from_to(0, 3) {
        supports.push(r.from_to(1, last));
    }
    r.shuffle(&mut supports);
    (consequent, supports)
}

/// Is this the same justification as one of the records?
pub fn holds(records: &[Record], record: &Record) -> bool {
    records.iter().any(|other| as_set(other) == as_set(record))
}

fn as_set(record: &Record) -> (u32, Vec<u32>) {
    let mut supports = record.1.clone();
    supports.sort();
    supports.dedup();
    (record.0, supports)
}

/// A sound or nearly sound case of any shape, not too large.
pub fn any_case(r: &mut Random) -> Case {
    match r.from_to(0, 10) {
        0..=3 => random_small(r),
        4 => random_middle(r),
        5 => random_crowded(r),
        6 => chain(r),
        7 => near_label_limit(r),
        8 => near_nogood_limit(r),
        9 => near_both_limits(r),
        _ => long_working_list(r),
    }
}
