//! The scripts to compare.

use crate::cases::{self, Case, Record};
use crate::files::case_for_script;
use crate::program::case_file;
use crate::program::random::Random;

/// A script. Those of one group try to hold the same justifications and end
/// in the same lines.
pub struct Script {
    pub kind: &'static str,
    pub bytes: Vec<u8>,
    pub group: Option<Group>,
    pub bare: Option<Bare>,
}

/// The line (from 1) that brings all of the list in hand into the store, and
/// the pairs of lines that agree if it does: a call on the store, and the bare
/// call.
pub struct Bare {
    pub bringing: usize,
    pub pairs: Vec<(usize, usize)>,
}

/// Which group; the lines (from 1) that bring the group's justifications and
/// have to be done; the lines whose reply numbers are alike in the group; and
/// the line where the common end begins.
pub struct Group {
    pub number: usize,
    pub bringing: Vec<usize>,
    pub numbers: Vec<usize>,
    pub end: usize,
}

const GROUPS: usize = 330;
const SEASONS: usize = 320;
const BARE: usize = 320;
const WAYS: u32 = 6;
const MOST_BYTES: usize = 65_536;

pub fn all(r: &mut Random) -> Vec<Script> {
    let mut scripts = Vec::new();
    for number in 0..GROUPS {
        one_group(r, number, &mut scripts);
    }
    for number in 0..SEASONS {
        one_season(r, number, &mut scripts);
    }
    let mut take = |count: u32, kind: &'static str, make: &mut dyn FnMut(u32) -> Vec<u8>| {
        (0..count).for_each(|i| scripts.push(Script { kind, bytes: make(i), group: None, bare: None }));
    };
    take(1250, "mixed", &mut |_| mixed(r));
    take(600, "adding to a limit", &mut |_| adding_to_a_limit(r));
    take(340, "withdrawing to a limit", &mut |_| withdrawing_to_a_limit(r));
    take(100, "256 held", &mut |_| held_256(r));
    take(150, "asking", &mut |_| asking(r));
    take(32, "full hand", &mut |_| full_hand(r));
    take(350, "bad lines", &mut |_| bad_lines(r));
    take(70, "long loads", &mut |_| long_loads(r));
    take(60, "about 65,536 bytes", &mut |i| about_65536(r, i));
    (0..BARE).for_each(|_| scripts.push(bare(r)));
    scripts
}

// ---------------------------------------------------------------- lines

/// A script being written: its lines so far.
#[derive(Default, Clone)]
struct Lines {
    lines: Vec<Vec<u8>>,
}

impl Lines {
    /// Add a line as it is and hand back its number, from 1. A question or
    /// context is followed by the same one to the plain path.
    fn plain(&mut self, line: impl Into<Vec<u8>>) -> usize {
        let line = line.into();
        let mirror = mirrored(&line);
        self.lines.push(line);
        let number = self.lines.len();
        self.lines.extend(mirror);
        number
    }

    /// Add a line written in an odd but allowed way; now and then a comment or
    /// an empty line comes before it.
    fn line(&mut self, r: &mut Random, line: &str) -> usize {
        if r.chance(4) {
            let skipped = *r.pick(&["", "   ", "# add 1 2", "#", "  #list", "#\tnothing"]);
            self.plain(skipped);
        }
        let text = if r.chance(8) { oddly_spaced(r, line) } else { line.to_string() };
        self.plain(text)
    }

    fn bytes(&self, r: &mut Random) -> Vec<u8> {
        let mut bytes = self.lines.join(&b'\n');
        if r.chance(90) {
            bytes.push(b'\n');
        }
        bytes
    }
}

/// The line with `plain` for `ask` or `plaincontext` for `context`.
fn mirrored(line: &[u8]) -> Option<Vec<u8>> {
    let spaces = line.iter().take_while(|&&byte| byte == b' ').count();
    let word: Vec<u8> = line[spaces..].iter().copied().take_while(|&byte| byte != b' ').collect();
    let other: &[u8] = match word.as_slice() {
        b"ask" => b"plain",
        b"context" => b"plaincontext",
        _ => return None,
    };
    Some([&line[..spaces], other, &line[spaces + word.len()..]].concat())
}

fn oddly_spaced(r: &mut Random, line: &str) -> String {
    let mut text = " ".repeat(r.from_to(0, 2) as usize);
    for word in line.split(' ') {
        let zeros = if r.chance(10) && is_number(word) && !line.starts_with("load") { "000" } else { "" };
        text.push_str(zeros);
        text.push_str(word);
        text.push_str(&" ".repeat(r.from_to(1, 3) as usize));
    }
    text
}

fn is_number(word: &str) -> bool {
    !word.is_empty() && word.bytes().all(|byte| byte.is_ascii_digit())
}

fn words(first: &str, numbers: &[u32]) -> String {
    let mut line = first.to_string();
    for n in numbers {
        line.push(' ');
        line.push_str(&n.to_string());
    }
    line
}

fn open_line(a: u32, m: u32) -> String {
    words("open", &[a, m])
}

fn add_line((consequent, supports): &Record) -> String {
    words("add", &[&[*consequent][..], supports].concat())
}

fn withdraw_line((consequent, supports): &Record) -> String {
    words("withdraw", &[&[*consequent][..], supports].concat())
}

fn rule_line((consequent, supports): &Record) -> String {
    words("rule", &[&[*consequent][..], supports].concat())
}

fn load_line(r: &mut Random, bytes: &[u8]) -> String {
    let upper = r.chance(50);
    let mut line = "load".to_string();
    for byte in bytes {
        line.push_str(&if upper { format!(" {byte:02X}") } else { format!(" {byte:02x}") });
    }
    line
}

// ---------------------------------------------------------------- groups

/// One set of justifications brought in several ways, with one end.
fn one_group(r: &mut Random, number: usize, scripts: &mut Vec<Script>) {
    let case = group_case(r);
    let end = common_end(r, &case);
    for way in 0..WAYS {
        let mut lines = Lines::default();
        let mut bringing = Vec::new();
        bring(r, way, &case, &mut lines, &mut bringing);
        let begin = lines.plain("# from here on all scripts of the group are alike") + 1;
        lines.lines.extend(end.lines.iter().cloned());
        let bytes = [lines.lines.join(&b'\n'), vec![b'\n']].concat();
        let group = Some(Group { number, bringing, numbers: vec![], end: begin });
        scripts.push(Script { kind: "orders", bytes, group, bare: None });
    }
}

/// Mostly small, so that most orders of adding are done to the end.
fn group_case(r: &mut Random) -> Case {
    loop {
        let case = match r.from_to(0, 12) {
            0..=6 => cases::random_small(r),
            7 => cases::random_middle(r),
            8 => cases::near_label_limit(r),
            9 => cases::near_nogood_limit(r),
            10 => cases::chain(r),
            11 => cases::long_working_list(r),
            _ => cases::random_crowded(r),
        };
        if case.records.len() <= 60 {
            return case;
        }
    }
}

fn bring(r: &mut Random, way: u32, case: &Case, lines: &mut Lines, bringing: &mut Vec<usize>) {
    let mut case = case.clone();
    if way > 0 {
        cases::reorder(r, &mut case);
    }
    if way > 0 && r.chance(30) {
        other_store_first(r, lines);
    }
    let loaded = match way {
        2 | 4 => case.records.len(),
        3 => r.from_to(0, case.records.len() as u32) as usize,
        _ => 0,
    };
    let strangers = if way == 5 { strangers(r, &case) } else { Vec::new() };
    let (first, rest) = case.records.split_at(loaded);
    if way < 2 || way == 5 {
        bringing.push(lines.line(r, &open_line(case.a, case.m)));
    } else {
        let part = Case { a: case.a, m: case.m, records: first.to_vec() };
        let line = load_line(r, &part.bytes());
        bringing.push(lines.line(r, &line));
    }
    for record in &strangers {
        lines.line(r, &add_line(record));
    }
    for record in rest {
        if way > 0 && r.chance(30) {
            changes_nothing(r, &case, lines);
        }
        bringing.push(lines.line(r, &add_line(record)));
    }
    for record in &strangers {
        let line = withdraw_line(&cases::respelled(r, record));
        bringing.push(lines.line(r, &line));
    }
    if way == 4 {
        // All is held already; say some of it again.
        for _ in 0..r.from_to(0, 4).min(case.records.len() as u32) {
            let again = r.pick(&case.records).clone();
            lines.line(r, &add_line(&again));
            changes_nothing(r, &case, lines);
        }
    }
}

/// A few justifications that are not of the case.
fn strangers(r: &mut Random, case: &Case) -> Vec<Record> {
    let count = r.from_to(1, 4);
    let mut records: Vec<Record> = (0..count).map(|_| cases::any_record(r, case.a, case.m)).collect();
    records.retain(|record| !cases::holds(&case.records, record));
    records
}

/// Another store before, which the opening or loading that follows replaces.
fn other_store_first(r: &mut Random, lines: &mut Lines) {
    let other = cases::random_small(r);
    lines.line(r, &open_line(other.a, other.m));
    for record in other.records.iter().take(5) {
        lines.line(r, &add_line(record));
    }
}

/// A call that is refused for certain, or a question, or a bad line.
fn changes_nothing(r: &mut Random, case: &Case, lines: &mut Lines) {
    let last = case.last();
    let above = *r.pick(&[last + 1, last + 1, 300, u32::MAX]);
    let line = match r.from_to(0, 16) {
        0 => words("add", &[above, 1]),
        1 => words("add", &[0, above]),
        2 => "add 0 0".to_string(),
        3 => "add 0 1 1 1 1 1".to_string(),
        4 => words("add", &[above, 0, 0, 0, 0, 0]),
        5 => words("open", &[*r.pick(&[33, 300, u32::MAX]), 0]),
        6 => words("open", &[0, *r.pick(&[97, 300, u32::MAX])]),
        7 => refused_load(r),
        8 => words("ask", &[r.from_to(0, last + 1), r.from_to(1, 33)]),
        9 => words("member", &[r.from_to(0, last + 1), r.from_to(0, 12)]),
        10 => words("line", &[r.from_to(0, last + 1)]),
        11 => words("context", &[r.from_to(1, case.a + 1)]),
        12 => "list".to_string(),
        13 => (*r.pick(&["withdraw 0 0", "withdraw 0 1 1 1 1 1"])).to_string(),
        14 => words("withdraw", &[above, 0]),
        15 => own_reason(r, last.max(1)),
        _ => (*r.pick(BAD_LINES)).to_string(),
    };
    lines.line(r, &line);
}

/// A rule that names its own consequent, to be added or withdrawn.
fn own_reason(r: &mut Random, last: u32) -> String {
    let record = cases::own_support(r, last);
    if r.chance(60) { add_line(&record) } else { withdraw_line(&record) }
}

/// A file that is refused for certain, for each reason there is.
fn refused_load(r: &mut Random) -> String {
    let whole = cases::random_small(r).bytes();
    let bytes = match r.from_to(0, 10) {
        0 => whole[..r.from_to(0, whole.len() as u32 - 1) as usize].to_vec(),
        1 => [&whole[..], &[0]].concat(),
        2 => vec![3, 0x80, 0, 1],
        3 => vec![33, 0, 0],
        4 => vec![2, 2, 0x81, 2],
        5 => vec![2, 2, 1, 1, 5, 1, 1, 1, 1, 1],
        6 => vec![2, 2, 1, 5, 1, 1],
        7 => vec![2, 2, 1, 3, 1, 0],
        8 => thirteen_singles().bytes(),
        9 => vec![2, 2, 2, 3, 1, 1, 3, 2, 1, 3],
        _ => thirty_six_pairs().bytes(),
    };
    load_line(r, &bytes)
}

fn thirteen_singles() -> Case {
    Case { a: 13, m: 1, records: (1..=13).map(|k| (14, vec![k])).collect() }
}

fn thirty_six_pairs() -> Case {
    let pairs = (1..=9).flat_map(|x| (x + 1..=9).map(move |y| (0, vec![x, y])));
    Case { a: 9, m: 0, records: pairs.collect() }
}

/// The common end: the listing, then calls that tell and calls that add.
fn common_end(r: &mut Random, case: &Case) -> Lines {
    let mut lines = Lines::default();
    lines.plain("list");
    lines.plain("write");
    for _ in 0..r.from_to(1, 5) {
        telling(r, case.a, case.m, &mut lines);
    }
    for _ in 0..r.from_to(1, 3) {
        let record = cases::any_record(r, case.a, case.m);
        lines.plain(add_line(&record));
    }
    lines.plain("list");
    for _ in 0..r.from_to(0, 3) {
        lines.plain(withdraw_line(&to_withdraw(r, case)));
    }
    lines.plain("list");
    lines
}

// ---------------------------------------------------------------- seasons

/// Items at once by `season`, and the same items by `add`, with one end.
fn one_season(r: &mut Random, number: usize, scripts: &mut Vec<Script>) {
    let (case, items) = season_items(r);
    let start = season_start(r, &case);
    let rounds = *r.pick(&[1, 2, 2, 3]);
    let end = common_end(r, &case);
    for at_once in [true, false] {
        let mut lines = Lines::default();
        if at_once {
            note_items(r, &items, &mut lines);
        }
        let line = lines.plain(start.clone());
        let mut numbers = vec![line];
        for _ in 0..rounds {
            if at_once {
                numbers.push(lines.line(r, "season"));
            } else {
                items.iter().for_each(|item| numbers.push(lines.line(r, &add_line(item))));
            }
        }
        let begin = lines.plain("# from here on both scripts are alike") + 1;
        lines.lines.extend(end.lines.iter().cloned());
        let bytes = [lines.lines.join(&b'\n'), vec![b'\n']].concat();
        let group = Some(Group { number, bringing: vec![], numbers, end: begin });
        scripts.push(Script { kind: "season", bytes, group, bare: None });
    }
}

/// A case, and items for it: its records, some of them twice, and faulty ones.
fn season_items(r: &mut Random) -> (Case, Vec<Record>) {
    if r.chance(12) {
        return full_season(r);
    }
    let mut case = match r.from_to(0, 9) {
        0 => cases::random_small(r),
        1..=4 => cases::near_label_limit(r),
        5..=8 => cases::near_nogood_limit(r),
        _ => cases::random_crowded(r),
    };
    cases::reorder(r, &mut case);
    let mut items = case.records.clone();
    if r.chance(70) {
        items.extend(case.records.iter().map(|record| cases::respelled(r, record)));
    }
    for _ in 0..r.from_to(0, 8) {
        let place = r.from_to(0, items.len() as u32) as usize;
        items.insert(place, perhaps_faulty(r, case.a, case.m));
    }
    items.truncate(*r.pick(&[5, 256, 256, 256, 256]));
    (case, items)
}

/// Items for a store that is full or nearly so: held ones and new ones.
fn full_season(r: &mut Random) -> (Case, Vec<Record>) {
    let case = cases::many_records(r, 256);
    let mut items = Vec::new();
    for _ in 0..r.from_to(8, 30) {
        items.push(if r.chance(40) { r.pick(&case.records).clone() } else { cases::floating(r, case.a, case.m) });
    }
    items.push(perhaps_faulty(r, case.a, case.m));
    (case, items)
}

/// Open, or load some of the case's records so that items are held already.
fn season_start(r: &mut Random, case: &Case) -> String {
    if r.chance(60) && case.records.len() < 200 {
        return open_line(case.a, case.m);
    }
    let fewest = if case.records.len() < 200 { 0 } else { case.records.len() as u32 - 8 };
    let some = r.from_to(fewest, case.records.len() as u32) as usize;
    let part = Case { a: case.a, m: case.m, records: case.records[..some].to_vec() };
    load_line(r, &part.bytes())
}

/// Note the items, at times after others that are forgotten again.
fn note_items(r: &mut Random, items: &[Record], lines: &mut Lines) {
    if r.chance(30) {
        for _ in 0..r.from_to(0, 3) {
            let other = cases::any_record(r, 4, 4);
            lines.line(r, &rule_line(&other));
        }
        lines.line(r, "forget");
    }
    for item in items {
        lines.line(r, &rule_line(item));
    }
}

/// The list in hand filled to 255, 256 and over, and lent to a small store.
fn full_hand(r: &mut Random) -> Vec<u8> {
    let mut lines = Lines::default();
    let (a, m) = (r.from_to(1, 6), r.from_to(1, 6));
    for _ in 0..*r.pick(&[255, 256, 257, 280, 280, 280]) {
        let record = perhaps_faulty(r, a, m);
        lines.line(r, &rule_line(&record));
    }
    lines.line(r, &open_line(a, m));
    for _ in 0..8 {
        lines.line(r, "season");
        let line = withdraw_line(&cases::any_record(r, a, m));
        lines.line(r, &line);
    }
    lines.line(r, "list");
    lines.line(r, "forget");
    lines.line(r, "season");
    lines.bytes(r)
}

// ---------------------------------------------------------------- bare lists

/// Calls on the list in hand, beside the same calls on a store that the same
/// list is brought into; at times the list has faulty items.
fn bare(r: &mut Random) -> Script {
    let case = bare_case(r);
    let mut lines = Lines::default();
    let mut items = case.records.clone();
    for _ in 0..*r.pick(&[0, 0, 0, 1, 2]) {
        let place = r.from_to(0, items.len() as u32) as usize;
        items.insert(place, surely_faulty(r, case.last().max(1)));
    }
    items.truncate(256);
    note_items(r, &items, &mut lines);
    let bringing = bring_list(r, &case, &items, &mut lines);
    let mut pairs = Vec::new();
    for _ in 0..r.from_to(6, 12) {
        pairs.push(bare_pair(r, &case, &mut lines));
        if r.chance(45) {
            odd_bare_call(r, &case, &mut lines);
        }
    }
    lines.line(r, "list");
    lines.line(r, "write");
    Script { kind: "bare", bytes: lines.bytes(r), group: None, bare: Some(Bare { bringing, pairs }) }
}

/// Open a store and lend it the list in hand, or load the same records; the
/// line that brings them.
fn bring_list(r: &mut Random, case: &Case, items: &[Record], lines: &mut Lines) -> usize {
    if r.chance(50) && items.len() < 100 {
        lines.line(r, &open_line(case.a, case.m));
        return lines.line(r, "season");
    }
    let whole = Case { a: case.a, m: case.m, records: items.to_vec() };
    let line = load_line(r, &whole.bytes());
    lines.line(r, &line)
}

/// A record that is refused by 6, 4, 5 or 17.
fn surely_faulty(r: &mut Random, last: u32) -> Record {
    let (consequent, mut supports) = cases::own_support(r, last);
    match r.from_to(0, 3) {
        0 => supports = vec![r.from_to(0, last); r.from_to(5, 7) as usize],
        1 => supports[0] = 0,
        2 => return (last + 1, supports),
        _ => {}
    }
    (consequent, supports)
}

/// Mostly small; chains for many stages; at times a long list.
fn bare_case(r: &mut Random) -> Case {
    match r.from_to(0, 9) {
        0..=3 => cases::random_small(r),
        4..=6 => cases::chain(r),
        7 => cases::kept_short(r),
        8 => cases::random_crowded(r),
        _ => {
            let count = r.from_to(100, 256);
            cases::many_records(r, count)
        }
    }
}

/// A call on the store and the same call on the bare list: their lines.
fn bare_pair(r: &mut Random, case: &Case, lines: &mut Lines) -> (usize, usize) {
    let n = if r.chance(10) { case.last() + 1 } else { r.from_to(0, case.last()) };
    let mut set = if r.chance(50) { wide_set(r, case.a) } else { random_set(r, case.a) };
    set.retain(|&k| k <= 32);
    let ((one, first), (other, counts)) = match r.from_to(0, 2) {
        0 => (("ask", vec![n]), ("bareask", vec![case.a, case.m, n])),
        1 => (("context", vec![]), ("barecontext", vec![case.a, case.m])),
        _ => (("stages", vec![]), ("barestages", vec![case.a, case.m])),
    };
    let one = lines.line(r, &words(one, &[first, set.clone()].concat()));
    let other = lines.line(r, &words(other, &[counts, set].concat()));
    (one, other)
}

/// A bare call with other counts or a number out of range.
fn odd_bare_call(r: &mut Random, case: &Case, lines: &mut Lines) {
    let (a, m) = match r.from_to(0, 4) {
        0 => (*r.pick(&[32, 33, 33, u32::MAX]), case.m),
        1 => (case.a, *r.pick(&[96, 97, 97, u32::MAX])),
        2 => (case.a, case.m.saturating_sub(1)),
        3 => (32, 96),
        _ => (case.a, case.m),
    };
    let mut set = random_set(r, case.a.min(32));
    if r.chance(15) {
        set.push(*r.pick(&[32, 32, 33, 0, 300]));
    }
    let line = match r.from_to(0, 2) {
        0 => words("bareask", &[vec![a, m, *r.pick(&[0, case.last(), case.last() + 1, u32::MAX])], set].concat()),
        1 => words("barecontext", &[vec![a, m], set].concat()),
        _ => words("barestages", &[vec![a, m], set].concat()),
    };
    lines.line(r, &line);
}

// ---------------------------------------------------------------- calls

/// A question, context, member, line, listing or the lines of a set.
fn telling(r: &mut Random, a: u32, m: u32, lines: &mut Lines) {
    let n = random_number(r, a + m);
    let set = random_set(r, a);
    let line = match r.from_to(0, 11) {
        0..=2 => words("ask", &[&[n][..], &set].concat()),
        3..=4 => words("context", &set),
        5..=7 => words("member", &[n, *r.pick(&[0, 0, 0, 1, 1, 2, 3, 11, 12, 31, 32, 300, u32::MAX])]),
        8 => words("line", &[n]),
        9 => words("stages", &set),
        10 => "write".to_string(),
        _ => "list".to_string(),
    };
    lines.line(r, &line);
}

/// A number mostly in range, at times just above, at times far above.
fn random_number(r: &mut Random, last: u32) -> u32 {
    match r.from_to(0, 19) {
        0 => last + 1,
        1 => *r.pick(&[129, 300, 65_536, u32::MAX]),
        2..=4 => 0,
        _ => r.from_to(0, last),
    }
}

/// Assumptions of a set, with repeats; at times one above A.
fn random_set(r: &mut Random, a: u32) -> Vec<u32> {
    let most = *r.pick(&[1, 3, 6, 40]);
    let mut set = Vec::new();
    if a > 0 {
        (0..r.from_to(0, most)).for_each(|_| set.push(r.from_to(1, a)));
    }
    if r.chance(8) {
        set.push(*r.pick(&[a + 1, a + 1, 33, 64, 300, u32::MAX]).max(&(a + 1)));
        r.shuffle(&mut set);
    }
    set
}

/// Each assumption with the same chance, mostly in rising order.
fn wide_set(r: &mut Random, a: u32) -> Vec<u32> {
    let chance = *r.pick(&[10, 30, 60, 90]);
    let mut set: Vec<u32> = (1..=a).filter(|_| r.chance(chance)).collect();
    if r.chance(20) {
        r.shuffle(&mut set);
    }
    set
}

/// Many questions about one case, most of them of a consequent and a wide set.
fn asking(r: &mut Random) -> Vec<u8> {
    let case = case_to_ask(r);
    let mut lines = Lines::default();
    let line = load_line(r, &case.bytes());
    lines.line(r, &line);
    for _ in 0..25 {
        let n = if case.records.is_empty() { case.last() } else { r.pick(&case.records).0 };
        let line = words("ask", &[&[n][..], &wide_set(r, case.a)].concat());
        lines.line(r, &line);
        if r.chance(25) {
            telling(r, case.a, case.m, &mut lines);
        }
        if r.chance(40) {
            let call = *r.pick(&["context", "stages"]);
            let line = words(call, &wide_set(r, case.a));
            lines.line(r, &line);
        }
    }
    lines.line(r, "list");
    lines.bytes(r)
}

/// A case with long lists that is loaded without a refusal.
fn case_to_ask(r: &mut Random) -> Case {
    loop {
        let case = match r.from_to(0, 4) {
            0 => cases::near_label_limit(r),
            1 => cases::near_nogood_limit(r),
            2 => cases::random_crowded(r),
            3 => cases::kept_short(r),
            _ => cases::random_small(r),
        };
        if case_file::load(&case.bytes()).is_ok() {
            return case;
        }
    }
}

/// All calls mixed, sound ones and others.
fn mixed(r: &mut Random) -> Vec<u8> {
    let mut lines = Lines::default();
    let mut now = Case { a: 0, m: 0, records: Vec::new() };
    for _ in 0..r.from_to(1, 3) {
        now = new_store(r, now, &mut lines);
        for _ in 0..r.from_to(3, 25) {
            any_call(r, &mut now, &mut lines);
        }
    }
    lines.line(r, "list");
    lines.bytes(r)
}

/// One call of any kind; `now` has the counts and what may be held.
fn any_call(r: &mut Random, now: &mut Case, lines: &mut Lines) {
    match r.from_to(0, 26) {
        0..=7 => {
            let record = perhaps_faulty(r, now.a, now.m);
            lines.line(r, &add_line(&record));
            now.records.push(record);
        }
        8..=17 => telling(r, now.a, now.m, lines),
        18 | 26 => {
            let line = refused_load(r);
            lines.line(r, &line);
        }
        19..=20 => {
            let line = withdraw_line(&to_withdraw(r, now));
            lines.line(r, &line);
        }
        21 => there_and_back(r, now, lines),
        22..=23 => {
            let line = rule_line(&perhaps_faulty(r, now.a, now.m));
            lines.line(r, &line);
        }
        24 => {
            let line = *r.pick(&["season", "season", "forget"]);
            lines.line(r, line);
        }
        _ => {
            lines.plain(*r.pick(BAD_LINES));
        }
    }
}

/// Mostly one that may be held, written another way; else any.
fn to_withdraw(r: &mut Random, now: &Case) -> Record {
    if now.records.is_empty() || r.chance(40) {
        return perhaps_faulty(r, now.a, now.m);
    }
    let record = r.pick(&now.records).clone();
    cases::respelled(r, &record)
}

/// The listing before and after one is added and at once withdrawn.
fn there_and_back(r: &mut Random, now: &Case, lines: &mut Lines) {
    let record = cases::any_record(r, now.a, now.m);
    let back = cases::respelled(r, &record);
    lines.plain("list");
    lines.plain(add_line(&record));
    lines.plain(withdraw_line(&back));
    lines.plain("list");
}

/// Open or load, at times in vain; the counts to go on with and what may be
/// held.
fn new_store(r: &mut Random, old: Case, lines: &mut Lines) -> Case {
    if r.chance(10) {
        let (a, m) = *r.pick(&[(33, 0), (0, 97), (32, 97), (33, 96), (300, 300), (u32::MAX, u32::MAX)]);
        lines.line(r, &open_line(a, m));
        return old;
    }
    if r.chance(50) {
        let case = case_for_script(r);
        let line = load_line(r, &case.bytes());
        lines.line(r, &line);
        return case;
    }
    let small = r.chance(80);
    let a = if small { r.from_to(0, 6) } else { *r.pick(&[0, 31, 32]) };
    let m = if small { r.from_to(0, 6) } else { *r.pick(&[0, 95, 96]) };
    lines.line(r, &open_line(a, m));
    Case { a, m, records: Vec::new() }
}

fn perhaps_faulty(r: &mut Random, a: u32, m: u32) -> Record {
    let (mut consequent, mut supports) = cases::any_record(r, a, m);
    match r.from_to(0, 19) {
        0 => consequent = *r.pick(&[a + m + 1, 300, u32::MAX]),
        1 => supports.push(*r.pick(&[a + m + 1, 300, u32::MAX])),
        2 => supports.insert(0, 0),
        3 => supports.resize(r.from_to(5, 9) as usize, r.from_to(0, a + m + 1)),
        4 => supports.push(consequent),
        _ => {}
    }
    (consequent, supports)
}

/// A case near a limit, added record by record, the refused ones tried again.
fn adding_to_a_limit(r: &mut Random) -> Vec<u8> {
    let case = match r.from_to(0, 6) {
        0..=2 => cases::near_label_limit(r),
        3..=5 => cases::near_nogood_limit(r),
        _ => cases::near_both_limits(r),
    };
    let mut lines = Lines::default();
    let begin = r.from_to(0, case.records.len() as u32 / 2) as usize;
    let part = Case { a: case.a, m: case.m, records: case.records[..begin].to_vec() };
    let line = if r.chance(50) { load_line(r, &part.bytes()) } else { open_line(case.a, case.m) };
    lines.line(r, &line);
    for record in &case.records {
        lines.line(r, &add_line(record));
    }
    telling(r, case.a, case.m, &mut lines);
    let again = r.pick(&case.records).clone();
    lines.line(r, &add_line(&again));
    let line = load_line(r, &case.bytes());
    lines.line(r, &line);
    lines.line(r, "list");
    lines.bytes(r)
}

/// A case that some rules keep within the limits: each rule is withdrawn and
/// mostly added again, then some are withdrawn for good.
fn withdrawing_to_a_limit(r: &mut Random) -> Vec<u8> {
    let mut case = cases::kept_short(r);
    let mut lines = Lines::default();
    let line = load_line(r, &case.bytes());
    lines.line(r, &line);
    r.shuffle(&mut case.records);
    for record in &case.records {
        let line = withdraw_line(&cases::respelled(r, record));
        lines.line(r, &line);
        if r.chance(99) {
            lines.line(r, &add_line(record));
        }
        if r.chance(5) {
            telling(r, case.a, case.m, &mut lines);
        }
    }
    lines.line(r, "list");
    r.shuffle(&mut case.records);
    let some = r.from_to(1, case.records.len() as u32) as usize;
    for record in &case.records[..some] {
        lines.line(r, &withdraw_line(record));
    }
    lines.line(r, "list");
    lines.bytes(r)
}

/// Mostly from just below 256 held to full: held ones, new ones and faulty ones, and
/// new ones in the place of one withdrawn.
fn held_256(r: &mut Random) -> Vec<u8> {
    let mut lines = Lines::default();
    let count = *r.pick(&[127, 128, 254, 255, 256, 256, 256, 256]);
    let case = cases::many_records(r, count);
    let line = load_line(r, &case.bytes());
    lines.line(r, &line);
    lines.line(r, "write");
    for _ in 0..12 {
        let record = match r.from_to(0, 3) {
            0 => r.pick(&case.records).clone(),
            1 => perhaps_faulty(r, case.a, case.m),
            _ => cases::floating(r, case.a, case.m),
        };
        lines.line(r, &add_line(&record));
    }
    for _ in 0..6 {
        let out = r.pick(&case.records).clone();
        let line = withdraw_line(&cases::respelled(r, &out));
        let (one, other) = (cases::floating(r, case.a, case.m), cases::floating(r, case.a, case.m));
        lines.line(r, &add_line(&one));
        lines.line(r, "write");
        lines.line(r, &add_line(&other));
        lines.line(r, &line);
    }
    lines.line(r, "list");
    lines.line(r, "write");
    lines.bytes(r)
}

/// Lines that are bad whatever the store is.
const BAD_LINES: &[&str] = &[
    "foo", "Open 1 1", "OPEN 1 1", "opens 1 1", "0", "1 2 3", "done", "-",
    "open", "open 1", "open 1 2 3", "open x 1", "open 1 x", "open 4294967296 0", "open -1 0",
    "open 0 99999999999999999999999999", "open 1 +1", "open 0x1 1", "open 1,1", "open\t1 1",
    "open 1 1\r", "open 1\t1",
    "load 0", "load 000", "load 0g", "load g0", "load 0x 00", "load 00 1", "load 0000", "load 00 -1",
    "load 00 00 00 zz", "load +1 00 00",
    "add", "add x", "add 1 x", "add 1 -1", "add 1 1.0", "add 1 4294967296", "add 4294967296",
    "add 1 1 1 1 1 1 x", "add 0,1", "add 1 #",
    "withdraw", "withdraw x", "withdraw 1 x", "withdraw 1 -1", "withdraw 1 4294967296",
    "withdraw 4294967296", "withdraw 1 1 1 1 1 1 x", "Withdraw 1", "withdraws 1 2", "withdraw 1 #",
    "rule", "rule x", "rule 1 x", "rule 4294967296", "rule 1 -1", "Rule 1", "rules 1", "forget 1", "forgets",
    "forget x", "season 1", "season x", "seasons", "Season", "season #",
    "ask", "ask x", "ask 1 0", "ask 300 0", "ask 1 1 0 1", "ask 1 00", "ask 1 4294967296", "ask 1 {1}",
    "context 0", "context 1 0", "context x", "context 000", "context 4294967296", "context 300 0",
    "plain", "plain x", "plain 1 0", "plain 1 4294967296", "plain 300 0", "Plain 1", "plaincontext 0",
    "plaincontext x", "plaincontext 1 0", "stages 0", "stages x", "stages 1 0", "stage 1", "stages 4294967296",
    "bareask", "bareask 1", "bareask 1 1", "bareask 1 1 1 0", "bareask 1 1 1 33", "bareask 33 97 1 33",
    "bareask 1 1 x", "bareask 1 1 1 300", "barecontext", "barecontext 1", "barecontext 1 1 0",
    "barecontext 32 1 33", "barecontext 1 x", "barestages", "barestages 1", "barestages 1 1 33",
    "barestages 1 1 0", "barestages 1 4294967296", "bare 1 1",
    "member", "member 1", "member 1 2 3", "member x 0", "member 0 x", "member 0 4294967296",
    "line", "line 1 2", "line x", "line 4294967296", "line -0",
    "write 1", "write x", "writes", "Write", "write #",
    "list 1", "list list", "list #", "listing", "list\t", "\tlist", "list\r", "\r",
];

/// Bad lines of all kinds, some made of random bytes, between sound calls.
fn bad_lines(r: &mut Random) -> Vec<u8> {
    let mut lines = Lines::default();
    let case = cases::random_small(r);
    lines.line(r, &open_line(case.a, case.m));
    for _ in 0..r.from_to(2, 12) {
        match r.from_to(0, 3) {
            0 => {
                let record = cases::any_record(r, case.a, case.m);
                lines.line(r, &add_line(&record));
            }
            1 => {
                let length = r.from_to(1, 12);
                let bytes: Vec<u8> = (0..length).map(|_| r.next() as u8).collect();
                lines.plain(bytes);
            }
            _ => {
                lines.plain(*r.pick(BAD_LINES));
            }
        }
    }
    lines.line(r, "list");
    lines.bytes(r)
}

/// Loads of 4,096 bytes and more, one of them at times a bad line as well.
fn long_loads(r: &mut Random) -> Vec<u8> {
    let mut lines = Lines::default();
    for _ in 0..4 {
        let mut bytes = cases::random_small(r).bytes();
        let length = *r.pick(&[4096, 4097, 4097, 4097, 4098, 5000]);
        while bytes.len() < length {
            bytes.push(r.next() as u8);
        }
        let mut line = load_line(r, &bytes);
        if r.chance(10) {
            line.push_str(" 0");
        }
        lines.plain(line);
    }
    lines.plain("list");
    lines.bytes(r)
}

/// A script filled up to about 65,536 bytes: with comments, spaces or calls.
fn about_65536(r: &mut Random, i: u32) -> Vec<u8> {
    let mut bytes = b"open 2 1\nadd 3 1 2\n".to_vec();
    let length = MOST_BYTES - 2 + (i as usize % 5);
    let filler = *r.pick(&["# filling\n", "          ", "ask 3 1 2\nplain 3 1 2\n", "line 0 \n\n\n"]);
    while bytes.len() + filler.len() + 6 < length {
        bytes.extend(filler.bytes());
    }
    if filler.trim().is_empty() {
        bytes.push(b'\n');
    }
    while bytes.len() + 5 < length {
        bytes.push(b' ');
    }
    bytes.extend(b"list\n");
    if i % 4 == 0 {
        bytes.extend(vec![b'#'; 30_000]);
    }
    bytes
}
