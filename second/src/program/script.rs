//! Replaying a script: one call a line, one reply a call.

use super::case_file::Fault;
use super::listing;
use super::plain::{Plain, Word};
use super::rule::{inside, single, Refusal, MOST_ASSUMPTIONS};
use super::store::{Added, Answer, Item, Store};
use super::writing;

/// A longer script is not replayed at all.
pub const MOST_BYTES: usize = 65_536;

/// The list in hand holds so many items.
pub const MOST_ITEMS: usize = 256;

/// The text of reply 1; no other call prints it.
const ALREADY_HELD: &str = "already held\n";

/// What a line asked for.
#[derive(Clone, Copy, Debug, PartialEq, Eq, Hash)]
pub enum Call {
    Open,
    Load,
    Add,
    Withdraw,
    Rule,
    Forget,
    Season,
    Ask,
    Context,
    Plain,
    PlainContext,
    Stages,
    BareAsk,
    BareContext,
    BareStages,
    Member,
    Line,
    List,
    Write,
    BadLine,
    TooLong,
}

/// One reply: the script's line it belongs to, the reply number behind it, the
/// stage that decided, the text with its newline, for some calls what kind of
/// answer it is, and for a season the reply number of each item.
#[derive(Clone, Debug)]
pub struct Reply {
    pub line: usize,
    pub call: Call,
    pub number: u32,
    pub stage: u32,
    pub text: String,
    pub kind: &'static str,
    pub items: Vec<u32>,
}

/// What the calls of a script work on: the store, and the list in hand.
struct Desk {
    store: Store,
    list: Vec<Item>,
}

/// A line that was read as a call, its fields all in order.
enum Command {
    Open(u32, u32),
    Load(Vec<u8>),
    Add(u32, Vec<u32>),
    Withdraw(u32, Vec<u32>),
    Rule(u32, Vec<u32>),
    Forget,
    Season,
    Ask(u32, Vec<u32>),
    Context(Vec<u32>),
    Plain(u32, Vec<u32>),
    PlainContext(Vec<u32>),
    Stages(Vec<u32>),
    BareAsk(u32, u32, u32, Vec<u32>),
    BareContext(u32, u32, Vec<u32>),
    BareStages(u32, u32, Vec<u32>),
    Member(u32, u32),
    Line(u32),
    List,
    Write,
}

/// All that was printed, in one piece.
pub fn text_of(replies: &[Reply]) -> Vec<u8> {
    replies.iter().flat_map(|reply| reply.text.bytes()).collect()
}

pub fn replay(input: &[u8]) -> Vec<Reply> {
    if input.len() > MOST_BYTES {
        let text = "too long\n".to_string();
        return vec![Reply { line: 0, call: Call::TooLong, number: 0, stage: 0, text, kind: "", items: vec![] }];
    }
    let store = Store::open(0, 0).expect("the smallest store opens");
    let mut desk = Desk { store, list: Vec::new() };
    let mut replies = Vec::new();
    for (i, line) in input.split(|&byte| byte == b'\n').enumerate() {
        let fields: Vec<&[u8]> =
            line.split(|&byte| byte == b' ').filter(|field| !field.is_empty()).collect();
        if fields.is_empty() || fields[0][0] == b'#' {
            continue;
        }
        replies.push(match read(fields[0], &fields[1..]) {
            Some(command) => run(&mut desk, i + 1, command),
            None => bad_line(i + 1),
        });
    }
    replies
}

fn bad_line(line: usize) -> Reply {
    Reply { line, call: Call::BadLine, number: 0, stage: 0, text: format!("bad line {line}\n"), kind: "", items: vec![] }
}

/// The command of a line, or nothing for a bad line.
fn read(name: &[u8], fields: &[&[u8]]) -> Option<Command> {
    if name == b"load" {
        return Some(Command::Load(fields.iter().map(|f| hex_byte(f)).collect::<Option<_>>()?));
    }
    let numbers: Vec<u32> = fields.iter().map(|f| number(f)).collect::<Option<_>>()?;
    match (name, numbers.as_slice()) {
        (b"open", &[a, m]) => Some(Command::Open(a, m)),
        (b"add", [consequent, supports @ ..]) => Some(Command::Add(*consequent, supports.to_vec())),
        (b"withdraw", [consequent, supports @ ..]) => {
            Some(Command::Withdraw(*consequent, supports.to_vec()))
        }
        (b"rule", [consequent, supports @ ..]) => Some(Command::Rule(*consequent, supports.to_vec())),
        (b"forget", []) => Some(Command::Forget),
        (b"season", []) => Some(Command::Season),
        (b"ask", [n, set @ ..]) if !set.contains(&0) => Some(Command::Ask(*n, set.to_vec())),
        (b"context", set) if !set.contains(&0) => Some(Command::Context(set.to_vec())),
        (b"plain", [n, set @ ..]) if !set.contains(&0) => Some(Command::Plain(*n, set.to_vec())),
        (b"plaincontext", set) if !set.contains(&0) => Some(Command::PlainContext(set.to_vec())),
        (b"stages", set) if !set.contains(&0) => Some(Command::Stages(set.to_vec())),
        (b"bareask", [a, m, n, set @ ..]) if bare_set(set) => {
            Some(Command::BareAsk(*a, *m, *n, set.to_vec()))
        }
        (b"barecontext", [a, m, set @ ..]) if bare_set(set) => {
            Some(Command::BareContext(*a, *m, set.to_vec()))
        }
        (b"barestages", [a, m, set @ ..]) if bare_set(set) => {
            Some(Command::BareStages(*a, *m, set.to_vec()))
        }
        (b"member", &[n, place]) => Some(Command::Member(n, place)),
        (b"line", &[n]) => Some(Command::Line(n)),
        (b"list", []) => Some(Command::List),
        (b"write", []) => Some(Command::Write),
        _ => None,
    }
}

/// In a bare call a set has numbers from 1 to 32 only.
fn bare_set(set: &[u32]) -> bool {
    set.iter().all(|&k| (1..=MOST_ASSUMPTIONS).contains(&k))
}

/// Decimal digits, leading zeros allowed, at most 4294967295.
fn number(field: &[u8]) -> Option<u32> {
    let mut value: u32 = 0;
    for byte in field {
        if !byte.is_ascii_digit() {
            return None;
        }
        value = value.checked_mul(10)?.checked_add(u32::from(byte - b'0'))?;
    }
    Some(value)
}

/// Exactly two hex digits, of either case.
fn hex_byte(field: &[u8]) -> Option<u8> {
    let digit = |byte: u8| (byte as char).to_digit(16);
    match field {
        &[high, low] => Some((digit(high)? * 16 + digit(low)?) as u8),
        _ => None,
    }
}

fn run(desk: &mut Desk, line: usize, command: Command) -> Reply {
    let Desk { store, list } = desk;
    let (call, outcome) = match command {
        Command::Open(a, m) => (Call::Open, open(store, a, m)),
        Command::Load(bytes) => return load(store, line, &bytes),
        Command::Add(consequent, supports) => (Call::Add, add(store, consequent, &supports)),
        Command::Withdraw(consequent, supports) => {
            let withdrawn = store.withdraw(consequent, &supports);
            (Call::Withdraw, withdrawn.map(|()| "done\n".to_string()))
        }
        Command::Rule(..) if list.len() == MOST_ITEMS => return full_hand(line),
        Command::Rule(consequent, supports) => {
            list.push((consequent, supports));
            (Call::Rule, Ok(String::new()))
        }
        Command::Forget => {
            list.clear();
            (Call::Forget, Ok(String::new()))
        }
        Command::Season => return season(store, line, list),
        Command::Ask(n, set) => {
            let answer = store.ask(n, &set);
            let kind = answer.map_or("", |answer| answer_kind(store, n, answer, &set));
            return Reply { kind, ..reply(line, Call::Ask, answer.map(answer_text)) };
        }
        Command::Context(set) => {
            let values = store.context(&set);
            let kind = values.as_ref().map_or("", |values| context_kind(values));
            return Reply { kind, ..reply(line, Call::Context, values.map(context_text)) };
        }
        Command::Plain(n, set) => return plain_ask(line, Call::Plain, Ok(store.plain()), n, &set),
        Command::PlainContext(set) => {
            return plain_context(line, Call::PlainContext, Ok(store.plain()), &set)
        }
        Command::Stages(set) => return plain_lines(line, Call::Stages, Ok(store.plain()), &set),
        Command::BareAsk(a, m, n, set) => {
            return plain_ask(line, Call::BareAsk, Plain::of_list(a, m, list), n, &set)
        }
        Command::BareContext(a, m, set) => {
            return plain_context(line, Call::BareContext, Plain::of_list(a, m, list), &set)
        }
        Command::BareStages(a, m, set) => {
            return plain_lines(line, Call::BareStages, Plain::of_list(a, m, list), &set)
        }
        Command::Member(n, place) => {
            let set = store.member(n, place);
            (Call::Member, set.map(|set| listing::set_text(set) + "\n"))
        }
        Command::Line(n) => {
            let checked = store.check_number(n);
            let kind = checked.map_or("", |()| listing::line_kind(store, n));
            let text = checked.map(|()| listing::line(store, n));
            return Reply { kind, ..reply(line, Call::Line, text) };
        }
        Command::List => (Call::List, Ok(listing::listing(store))),
        Command::Write => return write(store, line),
    };
    reply(line, call, outcome)
}

/// The reply to any call but load.
fn reply(line: usize, call: Call, outcome: Result<String, Refusal>) -> Reply {
    match outcome {
        Ok(text) => {
            let number = u32::from(text == ALREADY_HELD);
            Reply { line, call, number, stage: 0, text, kind: "", items: vec![] }
        }
        Err(Refusal { number, named, stage }) => {
            let text = match named {
                Some(n) => format!("refused {number} {n}\n"),
                None => format!("refused {number}\n"),
            };
            Reply { line, call, number, stage, text, kind: "", items: vec![] }
        }
    }
}

fn open(store: &mut Store, a: u32, m: u32) -> Result<String, Refusal> {
    *store = Store::open(a, m)?;
    Ok("done\n".to_string())
}

fn load(store: &mut Store, line: usize, bytes: &[u8]) -> Reply {
    let call = Call::Load;
    match listing::load(bytes) {
        Ok(loaded) => {
            *store = loaded;
            Reply { line, call, number: 0, stage: 0, text: "done\n".to_string(), kind: "", items: vec![] }
        }
        Err(Fault { refusal: Refusal { number, named, stage }, record }) => {
            let text = match named {
                Some(n) => format!("refused {number} {record} {n}\n"),
                None => format!("refused {number} {record}\n"),
            };
            Reply { line, call, number, stage, text, kind: "", items: vec![] }
        }
    }
}

fn add(store: &mut Store, consequent: u32, supports: &[u32]) -> Result<String, Refusal> {
    Ok(match store.add(consequent, supports)? {
        Added::Done => "done\n".to_string(),
        Added::AlreadyHeld => ALREADY_HELD.to_string(),
    })
}

/// The case file of the store in hex.
fn write(store: &Store, line: usize) -> Reply {
    let kind = match store.held_count() {
        0 => "written: nothing held",
        256 => "written: 256 held",
        128.. => "written: a count of two bytes",
        _ => "written: a count of one byte",
    };
    let text = writing::hex_text(&writing::file_of(store));
    Reply { kind, ..reply(line, Call::Write, Ok(text)) }
}

/// The reply to a rule that the list in hand has no room for.
fn full_hand(line: usize) -> Reply {
    Reply { kind: "bad line, the list in hand is full", ..bad_line(line) }
}

/// `done` and the reply number of each item.
fn season(store: &mut Store, line: usize, list: &[Item]) -> Reply {
    let items = store.season(list);
    let text: String = items.iter().map(|number| format!(" {number}")).collect();
    let kind = match items.len() {
        0 => "season of no items",
        MOST_ITEMS => "season of 256 items",
        _ => "season",
    };
    Reply { kind, items, ..reply(line, Call::Season, Ok(format!("done{text}\n"))) }
}

/// The word, and the set that is the reason, if there is one.
fn answer_text(answer: Answer) -> String {
    match answer {
        Answer::Supported(set) => format!("supported {}\n", listing::set_text(set)),
        Answer::Unsupported => "unsupported\n".to_string(),
        Answer::Inconsistent(set) => format!("inconsistent {}\n", listing::set_text(set)),
    }
}

/// The kind of an answer: which word, and whether there was a choice of reasons.
fn answer_kind(store: &Store, n: u32, answer: Answer, assumptions: &[u32]) -> &'static str {
    let set = assumptions.iter().fold(0, |set, &k| set | single(k));
    let several = |n: u32| store.list(n).iter().filter(|&&member| inside(member, set)).count() > 1;
    match answer {
        Answer::Supported(0) => "supported by the empty set",
        Answer::Supported(_) if several(n) => "supported, several members within",
        Answer::Supported(_) => "supported, one member within",
        Answer::Inconsistent(0) => "inconsistent by the empty set",
        Answer::Inconsistent(_) if several(0) => "inconsistent, several nogoods within",
        Answer::Inconsistent(_) => "inconsistent, one nogood within",
        Answer::Unsupported if n == 0 => "falsity unsupported",
        Answer::Unsupported => "unsupported",
    }
}

fn context_text(values: Vec<u8>) -> String {
    let words: Vec<String> = values.iter().map(u8::to_string).collect();
    words.join(" ") + "\n"
}

/// The kind of a context: which values it has.
fn context_kind(values: &[u8]) -> &'static str {
    match (values.contains(&1), values.contains(&3)) {
        _ if values.contains(&2) => "context of 2s",
        (true, true) => "context with 1s and 3s",
        (false, true) => "context with 3s and no 1",
        (true, false) => "context with 1s and no 3",
        (false, false) => "context of 0s",
    }
}

/// A question to the plain path.
fn plain_ask(line: usize, call: Call, plain: Result<Plain, Refusal>, n: u32, set: &[u32]) -> Reply {
    let answer = plain.and_then(|plain| plain.ask(n, set));
    let kind = match answer {
        Ok(Word::Supported) => "plain: supported",
        Ok(Word::Unsupported) => "plain: unsupported",
        Ok(Word::Inconsistent) => "plain: inconsistent",
        Err(_) => "",
    };
    let text = answer.map(|word| match word {
        Word::Supported => "supported\n".to_string(),
        Word::Unsupported => "unsupported\n".to_string(),
        Word::Inconsistent => "inconsistent\n".to_string(),
    });
    Reply { kind, ..reply(line, call, text) }
}

/// A context by the plain path.
fn plain_context(line: usize, call: Call, plain: Result<Plain, Refusal>, set: &[u32]) -> Reply {
    let values = plain.and_then(|plain| plain.context(set));
    let kind = match &values {
        Ok(values) if values.contains(&2) => "plain: context of 2s",
        Ok(values) if values.contains(&1) => "plain: context with 1s",
        Ok(_) => "plain: context of 0s",
        Err(_) => "",
    };
    Reply { kind, ..reply(line, call, values.map(context_text)) }
}

/// The lines of the plain path.
fn plain_lines(line: usize, call: Call, plain: Result<Plain, Refusal>, set: &[u32]) -> Reply {
    let text = plain.and_then(|plain| plain.lines(set));
    let kind = text.as_ref().map_or("", |text| lines_kind(text));
    Reply { kind, ..reply(line, call, text) }
}

/// The kind of the lines: how many, and whether falsity is the last to follow.
fn lines_kind(text: &str) -> &'static str {
    let lines: Vec<&str> = text.lines().collect();
    let falsity = lines.iter().position(|line| line.split(' ').nth(1) == Some("0"));
    match falsity {
        _ if lines.len() >= 12 => "12 stages or more",
        None if lines.len() == 1 => "stage 0 alone",
        None => "2 to 11 stages",
        Some(place) if place + 1 == lines.len() => "stages that end with falsity",
        Some(_) => "stages that go on after falsity",
    }
}
