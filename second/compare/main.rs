//! Compares a product's programs with the second program, byte for byte, on
//! thousands of inputs made from a seed.
//!
//!   compare OURS_LIST OURS_REPLAY SECOND SEED [OURS_REWRITE]
//!
//! OURS_LIST lists a case file from standard input, OURS_REPLAY replays a
//! script, OURS_REWRITE writes a case file in canonical form; without it the
//! rewriting of the second program alone is looked at. The second program is built in; the program SECOND itself is run
//! on the named cases and on some of the others, to see that it is the same.
//!
//! Build: rustc -O --edition 2021 -o compare compare/main.rs

mod cases;
mod files;
mod jobs;
mod named;
#[allow(dead_code)]
#[path = "../src/program/mod.rs"]
mod program;
mod scripts;
mod tally;

use jobs::{Job, Program};
use program::random::Random;
use scripts::Script;
use program::script::Call;
use program::{listing, script, writing};
use std::collections::HashMap;
use std::sync::atomic::{AtomicUsize, Ordering};
use tally::Tally;

const WORKERS: usize = 2;
const LEAST_FILES: usize = 15_000;
const LEAST_SCRIPTS: usize = 5_000;
const LEAST_GROUPS: usize = 100;
/// One in so many inputs also goes to the program SECOND.
const SAMPLE: usize = 40;
/// So many differences are shown; at so many the work ends.
const SHOWN: usize = 5;
const ENOUGH: usize = 20;

struct Paths {
    list: String,
    replay: String,
    second: String,
    rewrite: Option<String>,
}

impl Paths {
    /// The product's program for a job, if it was handed in.
    fn ours(&self, program: Program) -> Option<&str> {
        match program {
            Program::List => Some(&self.list),
            Program::Replay => Some(&self.replay),
            Program::Rewrite => self.rewrite.as_deref(),
        }
    }
}

/// What a worker found.
#[derive(Default)]
struct Findings {
    tally: Tally,
    compared: usize,
    sampled: usize,
    differences: Vec<String>,
    /// For each group, by kind and number, the common ends of those scripts
    /// whose bringing lines were all done.
    ends: HashMap<(&'static str, usize), Vec<(String, Vec<u8>)>>,
}

fn main() {
    let words: Vec<String> = std::env::args().skip(1).collect();
    let seed = words.get(3).and_then(|word| word.parse::<u64>().ok());
    let (4..=5, Some(seed)) = (words.len(), seed) else {
        eprintln!("use: compare OURS_LIST OURS_REPLAY SECOND SEED [OURS_REWRITE]");
        std::process::exit(2);
    };
    let paths = Paths {
        list: words[0].clone(),
        replay: words[1].clone(),
        second: words[2].clone(),
        rewrite: words.get(4).cloned(),
    };
    let jobs = all_jobs(seed);
    let findings = work(&paths, &jobs);
    std::process::exit(report(seed, &jobs, &findings));
}

/// The named cases, then the files and scripts.
fn all_jobs(seed: u64) -> Vec<Job> {
    let mut jobs = Vec::new();
    for case in named::all() {
        let expected = Some(case.expected);
        jobs.push(Job { kind: case.name, program: case.program, input: case.input, expected, group: None, bare: None });
    }
    let named = jobs.len();
    for (place, file) in files::all(&mut Random::new(seed)).into_iter().enumerate() {
        if files::to_rewrite(&file, place) {
            let (kind, program, input) = (file.kind, Program::Rewrite, file.bytes.clone());
            jobs.push(Job { kind, program, input, expected: None, group: None, bare: None });
        }
        jobs.push(Job { kind: file.kind, program: Program::List, input: file.bytes, expected: None, group: None, bare: None });
    }
    for script in scripts::all(&mut Random::new(!seed)) {
        let Script { kind, bytes: input, group, bare } = script;
        jobs.push(Job { kind, program: Program::Replay, input, expected: None, group, bare });
    }
    // All kinds mixed, so that a difference of any kind shows early.
    Random::new(seed).shuffle(&mut jobs[named..]);
    jobs
}

/// Share the jobs among the workers and put their findings together.
fn work(paths: &Paths, jobs: &[Job]) -> Findings {
    let next = AtomicUsize::new(0);
    let differences = AtomicUsize::new(0);
    let worker = || {
        let mut findings = Findings::default();
        while differences.load(Ordering::Relaxed) < ENOUGH {
            let place = next.fetch_add(1, Ordering::Relaxed);
            let Some(job) = jobs.get(place) else { break };
            let before = findings.differences.len();
            let sampled = job.expected.is_some() || place % SAMPLE == 0;
            one_job(paths, job, sampled, &mut findings);
            differences.fetch_add(findings.differences.len() - before, Ordering::Relaxed);
        }
        findings
    };
    let mut all = Findings::default();
    std::thread::scope(|scope| {
        let handles: Vec<_> = (0..WORKERS).map(|_| scope.spawn(worker)).collect();
        for handle in handles {
            all.take_in(handle.join().expect("a worker"));
        }
    });
    all.compare_ends();
    all
}

/// Run one input through both and compare.
fn one_job(paths: &Paths, job: &Job, sampled: bool, findings: &mut Findings) {
    let second = match job.program {
        Program::List => {
            let listed = listing::list(&job.input);
            findings.tally.count_file(&listed);
            findings.hold_depth(job, &listed);
            listed.text
        }
        Program::Replay => {
            let replies = script::replay(&job.input);
            findings.tally.count_script(&replies);
            findings.keep_end(job, &replies);
            findings.hold_mirrors(job, &replies);
            findings.hold_bare(job, &replies);
            findings.hold_written(job, &replies);
            script::text_of(&replies)
        }
        Program::Rewrite => findings.rewritten(job),
    };
    if let Some(expected) = &job.expected {
        findings.judge(job, "the document", Ok(expected.clone()), "second", &second);
    }
    if sampled {
        let program = jobs::run(&paths.second, &[job.program.word()], &job.input, job.program);
        findings.judge(job, "the program SECOND", program, "second", &second);
        findings.sampled += 1;
    }
    if let Some(path) = paths.ours(job.program) {
        let ours = jobs::run(path, &[], &job.input, job.program);
        findings.judge(job, "ours", ours, "second", &second);
        findings.compared += 1;
    }
}

impl Findings {
    /// Note a difference between two outputs.
    fn judge(&mut self, job: &Job, one: &str, output: Result<Vec<u8>, String>, two: &str, other: &[u8]) {
        let said = match output {
            Ok(output) if output == other => return,
            Ok(output) => shown(job.program, &output),
            Err(trouble) => format!("({trouble})\n"),
        };
        self.differences.push(format!(
            "difference ({}, {:?}); input as hex:\n{}\n{one}:\n{said}{two}:\n{}",
            job.kind,
            job.program,
            hex(&job.input),
            shown(job.program, other)
        ));
    }

    /// No case is deeper than it has different consequents.
    fn hold_depth(&mut self, job: &Job, listed: &listing::Listed) {
        if listed.depth > listed.consequents {
            let (depth, consequents) = (listed.depth, listed.consequents);
            self.differences.push(format!(
                "difference ({}, depth): {depth} with {consequents} consequents; input as hex:\n{}",
                job.kind,
                hex(&job.input)
            ));
        }
    }

    /// Where a line of the plain path comes after the line it mirrors, with the
    /// same fields, the two agree.
    fn hold_mirrors(&mut self, job: &Job, replies: &[script::Reply]) {
        let lines: Vec<&[u8]> = job.input.split(|&byte| byte == b'\n').collect();
        for two in replies.windows(2) {
            let kind = match (two[0].call, two[1].call) {
                (Call::Ask, Call::Plain) => "plain held to ask",
                (Call::Context, Call::PlainContext) => "plaincontext held to context",
                _ => continue,
            };
            let fields = |reply: &script::Reply| fields_of(lines[reply.line - 1]);
            if fields(&two[0])[1..] == fields(&two[1])[1..] {
                self.hold(job, kind, &two[0], &two[1]);
            }
        }
    }

    /// Where the store holds the rules of the list in hand, the bare calls agree
    /// with the calls they stand beside.
    fn hold_bare(&mut self, job: &Job, replies: &[script::Reply]) {
        let Some(bare) = &job.bare else { return };
        let at = |line: usize| replies.iter().find(|reply| reply.line == line).expect("a reply");
        if reply_numbers(at(bare.bringing)).iter().any(|&number| number > 1) {
            return;
        }
        for &(one, other) in &bare.pairs {
            let kind = match at(other).call {
                Call::BareAsk => "bareask held to ask",
                Call::BareContext => "barecontext held to context",
                _ => "barestages held to stages",
            };
            self.hold(job, kind, at(one), at(other));
        }
    }

    /// Two replies that have to agree, reasons aside and with 0 in place of 3.
    fn hold(&mut self, job: &Job, kind: &'static str, one: &script::Reply, other: &script::Reply) {
        self.tally.count_kind(kind);
        if plain_text(one) != other.text {
            self.differences.push(format!(
                "difference ({}, {kind}): lines {} and {}; input as hex:\n{}\none:\n{}other:\n{}",
                job.kind, one.line, other.line, hex(&job.input), one.text, other.text
            ));
        }
    }

    /// What rewriting prints. Written, it lists as the file did, and it is
    /// written again as it is.
    fn rewritten(&mut self, job: &Job) -> Vec<u8> {
        let written = writing::rewrite(&job.input);
        self.tally.count_rewriting(&written);
        match written {
            Ok(bytes) => {
                let listed = listing::list(&bytes).text == listing::list(&job.input).text;
                let again = writing::rewrite(&bytes).is_ok_and(|again| again == bytes);
                self.hold_true(job, "the file written lists alike", listed);
                self.hold_true(job, "a file written is written again as it is", again);
                jobs::both(&bytes, b"")
            }
            Err(fault) => jobs::both(b"", listing::refusal_line(&fault).as_bytes()),
        }
    }

    /// Where a store is listed and then written, what was written lists alike.
    fn hold_written(&mut self, job: &Job, replies: &[script::Reply]) {
        for two in replies.windows(2) {
            if (two[0].call, two[1].call) == (Call::List, Call::Write) {
                let listed = listing::list(&bytes_of_hex(&two[1].text)).text;
                self.hold_true(job, "the file written by a script lists alike", listed == two[0].text.as_bytes());
            }
        }
    }

    /// Count a thing that has to be true, and note where it is not.
    fn hold_true(&mut self, job: &Job, kind: &'static str, fine: bool) {
        self.tally.count_kind(kind);
        if !fine {
            self.differences.push(format!(
                "difference ({}): not so: {kind}; input as hex:\n{}",
                job.kind,
                hex(&job.input)
            ));
        }
    }

    /// Keep the common end of a script of a group if all that was to be brought
    /// in was done or already held, and all to be withdrawn is not held.
    fn keep_end(&mut self, job: &Job, replies: &[script::Reply]) {
        let Some(group) = &job.group else { return };
        let brought = |reply: &&script::Reply| group.bringing.contains(&reply.line);
        if replies.iter().filter(brought).all(|reply| matches!(reply.number, 0 | 1 | 18)) {
            let told = replies.iter().filter(|reply| group.numbers.contains(&reply.line));
            let mut text: String = told.flat_map(reply_numbers).map(|number| format!("{number} ")).collect();
            let end = replies.iter().filter(|reply| reply.line >= group.end);
            end.for_each(|reply| text.push_str(&reply.text));
            self.ends.entry((job.kind, group.number)).or_default().push((text, job.input.clone()));
        }
    }

    /// Within a group all ends kept are the same.
    fn compare_ends(&mut self) {
        for ((kind, number), ends) in &self.ends {
            for (text, input) in &ends[1..] {
                if *text != ends[0].0 {
                    self.differences.push(format!(
                        "group {number} of {kind}: two ways end differently; inputs as hex:\n{}\n{}\none:\n{}two:\n{text}",
                        hex(&ends[0].1), hex(input), ends[0].0
                    ));
                }
            }
        }
    }

    /// The groups of a kind in which at least two scripts could be compared.
    fn groups_compared(&self, kind: &str) -> usize {
        self.ends.iter().filter(|(key, ends)| key.0 == kind && ends.len() > 1).count()
    }

    fn take_in(&mut self, other: Findings) {
        self.tally.take_in(&other.tally);
        self.compared += other.compared;
        self.sampled += other.sampled;
        self.differences.extend(other.differences);
        for (key, ends) in other.ends {
            self.ends.entry(key).or_default().extend(ends);
        }
    }
}

/// A reply as the plain path would give it: no reason, and 0 in place of 3.
fn plain_text(reply: &script::Reply) -> String {
    match reply.call {
        Call::Ask if reply.number == 0 => {
            format!("{}\n", reply.text.split_whitespace().next().unwrap_or(""))
        }
        Call::Context if reply.number == 0 => reply.text.replace('3', "0"),
        _ => reply.text.clone(),
    }
}

/// An output as text; that of rewriting as hex.
fn shown(program: Program, output: &[u8]) -> String {
    if program == Program::Rewrite {
        return hex(output) + "\n";
    }
    String::from_utf8_lossy(output).into_owned()
}

fn bytes_of_hex(text: &str) -> Vec<u8> {
    text.split_whitespace().filter_map(|word| u8::from_str_radix(word, 16).ok()).collect()
}

fn fields_of(line: &[u8]) -> Vec<&[u8]> {
    line.split(|&byte| byte == b' ').filter(|field| !field.is_empty()).collect()
}

/// The reply number of a call, or those of a season's items.
fn reply_numbers(reply: &script::Reply) -> Vec<u32> {
    if reply.call == Call::Season { reply.items.clone() } else { vec![reply.number] }
}

fn hex(bytes: &[u8]) -> String {
    bytes.iter().map(|byte| format!("{byte:02x} ")).collect::<String>().trim_end().to_string()
}

/// Print the table and the verdict; the exit code.
fn report(seed: u64, jobs: &[Job], findings: &Findings) -> i32 {
    for difference in findings.differences.iter().take(SHOWN) {
        println!("{difference}");
    }
    let named = jobs.iter().filter(|job| job.expected.is_some()).count();
    let scripts = jobs.iter().filter(|job| job.expected.is_none() && job.program == Program::Replay).count();
    let rewritten = jobs.iter().filter(|job| job.expected.is_none() && job.program == Program::Rewrite).count();
    let files = jobs.len() - named - scripts - rewritten;
    println!("seed {seed}: {named} named cases, {files} files, {rewritten} of them to rewrite, {scripts} scripts");
    println!("{} inputs also went to the program SECOND", findings.sampled);
    println!("{} groups of scripts: the same justifications in several orders", findings.groups_compared("orders"));
    println!("{} pairs of scripts: a season, and its items added one by one", findings.groups_compared("season"));
    findings.tally.print();
    let mut faults = findings.tally.too_few();
    for (what, count, least) in [
        ("files", files, LEAST_FILES),
        ("scripts", scripts, LEAST_SCRIPTS),
        ("groups of scripts", findings.groups_compared("orders"), LEAST_GROUPS),
        ("pairs of seasons", findings.groups_compared("season"), LEAST_GROUPS),
    ] {
        if count < least {
            faults.push(format!("only {count} {what}"));
        }
    }
    let differences = findings.differences.len();
    if differences > 0 {
        let more = if differences >= ENOUGH { " or more (ended early)" } else { "" };
        println!("compare: FAILED, {differences} differences{more}");
        return 1;
    }
    if !faults.is_empty() {
        println!("compare: FAILED, {}", faults.join("; "));
        return 1;
    }
    println!("{} passed, 0 failed", findings.compared);
    0
}
