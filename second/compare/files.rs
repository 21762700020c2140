//! The case files to compare: sound, at the limits, damaged, cut and too long.

use crate::cases::{self, header, number, Case};
use crate::program::random::Random;
use std::collections::HashSet;

pub struct File {
    pub kind: &'static str,
    pub bytes: Vec<u8>,
}

/// All files, no two of them alike.
pub fn all(r: &mut Random) -> Vec<File> {
    let mut files = Files { files: Vec::new(), seen: HashSet::new() };
    files.take(3800, "small", |_| cases::random_small(r).bytes());
    files.take(1100, "middle", |_| cases::random_middle(r).bytes());
    files.take(700, "large", |_| cases::random_large(r).bytes());
    files.take(900, "crowded", |_| cases::random_crowded(r).bytes());
    files.take(600, "chain", |_| cases::chain(r).bytes());
    files.take(1400, "label limit", |_| cases::near_label_limit(r).bytes());
    files.take(1400, "nogood limit", |_| cases::near_nogood_limit(r).bytes());
    files.take(500, "both limits", |_| cases::near_both_limits(r).bytes());
    files.take(600, "long working list", |_| cases::long_working_list(r).bytes());
    files.take(500, "counts", |i| counts(r, i));
    files.take(500, "header", |_| odd_header(r));
    files.take(900, "record fault", |i| record_fault(r, i));
    files.take(300, "number form", |_| number_form(r));
    files.take(400, "bytes after", |_| bytes_after(r));
    files.take(2000, "damaged", |_| damaged(r));
    files.take(400, "about 4,096 bytes", |i| about_4096(r, i));
    files.cut(1600, r);
    files.files
}

/// The files with faults at a certain place, and some of the others.
pub fn to_rewrite(file: &File, place: usize) -> bool {
    match file.kind {
        "counts" | "header" | "record fault" | "number form" | "bytes after" | "about 4,096 bytes" => true,
        "label limit" | "nogood limit" => place % 4 == 0,
        _ => place % 7 == 0,
    }
}

struct Files {
    files: Vec<File>,
    seen: HashSet<Vec<u8>>,
}

impl Files {
    /// Make `count` files; those that are there already are left out.
    fn take(&mut self, count: u32, kind: &'static str, mut make: impl FnMut(u32) -> Vec<u8>) {
        for i in 0..count {
            self.put(kind, make(i));
        }
    }

    fn put(&mut self, kind: &'static str, bytes: Vec<u8>) {
        if self.seen.insert(bytes.clone()) {
            self.files.push(File { kind, bytes });
        }
    }

    /// Files cut short at every length, until there are enough.
    fn cut(&mut self, enough: usize, r: &mut Random) {
        let before = self.files.len();
        while self.files.len() < before + enough {
            let whole = cases::any_case(r).bytes();
            if whole.len() <= 150 {
                (0..whole.len()).for_each(|length| self.put("cut", whole[..length].to_vec()));
            }
        }
    }
}

/// Counts of records near 256: sound up to 256, refused above; repeats count.
fn counts(r: &mut Random, i: u32) -> Vec<u8> {
    let count = 250 + i % 12;
    if i % 5 == 0 {
        // The header alone is enough to be refused, whatever follows.
        let (a, m) = (r.from_to(0, 33), r.from_to(0, 97));
        let mut bytes = header(a, m, *r.pick(&[255, 256, 257, 258, 300, 512, 16_383]));
        bytes.extend(random_bytes(r, 20));
        return bytes;
    }
    let repeats = if i % 3 == 0 { 0 } else { r.from_to(1, 30) };
    let mut case = cases::many_records(r, count - repeats);
    for _ in 0..repeats {
        case.records.push(r.pick(&case.records).clone());
    }
    r.shuffle(&mut case.records);
    case.bytes()
}

/// A and M about their limits, and far above; with and without records.
fn odd_header(r: &mut Random) -> Vec<u8> {
    let a = *r.pick(&[0, 1, 31, 32, 32, 33, 34, 127, 128, 300, 16_383]);
    let m = *r.pick(&[0, 1, 95, 96, 96, 97, 98, 127, 128, 300, 16_383]);
    let count = *r.pick(&[0, 0, 1, 2, 256, 257]);
    let mut bytes = header(a, m, count);
    for _ in 0..count.min(2) {
        let (consequent, supports) = cases::any_record(r, a.min(32), m.min(96));
        bytes.extend(number(consequent));
        bytes.extend(number(supports.len() as u32));
        supports.iter().for_each(|&n| bytes.extend(number(n)));
    }
    bytes
}

/// A sound case with one record (or two) made faulty: 4, 5, 6 or 17, or
/// several faults at once in one record.
fn record_fault(r: &mut Random, i: u32) -> Vec<u8> {
    let mut case = cases::any_case(r);
    if case.records.is_empty() {
        case.records.push((0, vec![]));
    }
    for _ in 0..r.from_to(1, 2) {
        let last = case.last();
        let above = *r.pick(&[last + 1, last + 1, last + 2, 129, 300, 16_383]);
        let place = r.from_to(0, case.records.len() as u32 - 1) as usize;
        let (consequent, supports) = &mut case.records[place];
        match i % 8 {
            0 => *consequent = above.max(last + 1),
            1 => put_anywhere(r, supports, above.max(last + 1)),
            2 => put_anywhere(r, supports, 0),
            3 => (0..5).for_each(|_| supports.push(last.min(1))),
            4 => {
                *supports = vec![0];
                *consequent = above;
            }
            5 => put_anywhere(r, supports, *consequent),
            6 => {
                let other = *r.pick(&[0, 0, above, above.max(last + 1)]);
                *supports = vec![*consequent, other];
                r.shuffle(supports);
            }
            _ => supports.resize(r.from_to(3, 7) as usize, r.from_to(0, 2)),
        }
    }
    case.bytes()
}

/// Put a number among the supports without making them more than four.
fn put_anywhere(r: &mut Random, supports: &mut Vec<u32>, n: u32) {
    supports.truncate(3);
    supports.push(n);
    r.shuffle(supports);
}

/// Two-byte numbers, sound ones and bad ones, in place of a byte.
fn number_form(r: &mut Random) -> Vec<u8> {
    let mut bytes = cases::any_case(r).bytes();
    let place = r.from_to(0, bytes.len() as u32 - 1) as usize;
    let old = bytes[place];
    let second = *r.pick(&[0, 0, 1, 127, 128, 255]);
    bytes.splice(place..=place, [old | 128, second]);
    if r.chance(20) {
        bytes.truncate(place + 1 + r.from_to(0, 1) as usize);
    }
    bytes
}

fn bytes_after(r: &mut Random) -> Vec<u8> {
    let mut bytes = cases::any_case(r).bytes();
    bytes.extend(random_bytes(r, 4));
    bytes
}

/// A file with a few bytes changed, put in or taken out.
fn damaged(r: &mut Random) -> Vec<u8> {
    let mut bytes = cases::any_case(r).bytes();
    for _ in 0..r.from_to(1, 3) {
        if bytes.is_empty() {
            break;
        }
        let place = r.from_to(0, bytes.len() as u32 - 1) as usize;
        match r.from_to(0, 5) {
            0 => bytes[place] = r.next() as u8,
            1 => bytes[place] ^= 1 << r.from_to(0, 7),
            2 => bytes[place] = r.from_to(0, 6) as u8,
            3 => bytes[place] = r.from_to(0, 129) as u8,
            4 => bytes.insert(place, r.next() as u8),
            _ => drop(bytes.remove(place)),
        }
    }
    bytes
}

/// Exactly 4,096 bytes, one less, and more.
fn about_4096(r: &mut Random, i: u32) -> Vec<u8> {
    let mut bytes = match i % 3 {
        0 => cases::any_case(r).bytes(),
        1 => cases::many_records(r, 256).bytes(),
        _ => random_bytes(r, 40),
    };
    let length = *r.pick(&[4095, 4096, 4096, 4097, 4097, 4098, 5000, 8192, 20_000]);
    while bytes.len() < length {
        bytes.push(r.next() as u8);
    }
    bytes.truncate(length);
    bytes
}

fn random_bytes(r: &mut Random, most: u32) -> Vec<u8> {
    (0..r.from_to(1, most)).map(|_| r.next() as u8).collect()
}

/// A case that loads, for scripts: kinds that are mostly sound.
pub fn case_for_script(r: &mut Random) -> Case {
    match r.from_to(0, 13) {
        0..=6 => cases::random_small(r),
        7 => cases::random_middle(r),
        8 => cases::chain(r),
        9 => cases::near_label_limit(r),
        10 => cases::near_nogood_limit(r),
        11 => cases::long_working_list(r),
        12 => cases::kept_short(r),
        _ => cases::random_crowded(r),
    }
}
