//! The answer to a question, its reason, and stage by stage how it follows.
use crate::case::{Case, Rule, Stages};
use crate::given::{number, Given};
use crate::names::Names;
use crate::{say, store_of, usage, BAD};
use reasons::{Answer, Refusal, Set, Store};

pub fn why(given: &Given) -> u8 {
    let [file, n, rest @ ..] = &given.words[..] else {
        return usage("why", "a file and a number");
    };
    let numbers: Result<Vec<u32>, String> = std::iter::once(n).chain(rest).map(number).collect();
    let numbers = match numbers {
        Ok(numbers) => numbers,
        Err(what) => return usage("why", &what),
    };
    if numbers[1..].contains(&0) {
        return usage("why", "0 is no assumption");
    }
    if given.none && !rest.is_empty() {
        return usage("why", "assumptions, or --none");
    }
    let Ok(names) = Names::of(given.names.as_deref()) else {
        return BAD;
    };
    let store = match store_of(file, false) {
        Ok(store) => store,
        Err(status) => return status,
    };
    say::told(if rest.is_empty() && !given.none {
        each_group(&store, numbers[0], &names)
    } else {
        asked(&store, numbers[0], &numbers[1..], &names)
    })
}

/// The question of n and the set of these assumptions; one above 32, which no set has, is refused with 4 as one above A is.
fn asked(store: &Store, n: u32, assumptions: &[u32], names: &Names) -> Result<String, Refusal> {
    let set = Set::of(assumptions)?;
    let (word, from, goal) = match store.question(n, set)? {
        Answer::Inconsistent(nogood) => (format!("inconsistent {}", names.set(nogood)), nogood, 0),
        Answer::Supported(member) => (format!("supported {}", names.set(member)), member, n),
        Answer::Unsupported => ("unsupported".to_string(), set, n),
    };
    Ok(format!("{} {word}\n{}", names.name(n), how(store, from, goal, names)))
}

/// The line of n, and how it follows from each group in it; where there is none, in words whether all assumptions together contradict
/// themselves, and what follows from them.
fn each_group(store: &Store, n: u32, names: &Names) -> Result<String, Refusal> {
    let mut text = names.in_text(&store.line(n)?);
    let groups = store.label(n)?;
    for &group in &groups {
        text += &format!("{}\n{}", names.set(group), how(store, group, n, names));
    }
    if groups.is_empty() {
        let every: Vec<u32> = (1..=Case::of(store).assumptions).collect();
        let all = Set::of(&every)?;
        let do_they = match store.question(n, all)? {
            Answer::Inconsistent(_) => "contradict themselves",
            _ => "do not contradict themselves",
        };
        text += &format!("no group; all assumptions together {do_they}\n{}", how(store, all, n, names));
    }
    Ok(text)
}

/// The stages from the set, each with the justifications that first gave what the goal rests on.
fn how(store: &Store, from: Set, goal: u32, names: &Names) -> String {
    let case = Case::of(store);
    let stages = Stages::of(store, from);
    let needed = needed(&case, &stages, goal);
    let mut text = String::new();
    for (k, line) in stages.lines.iter().enumerate() {
        text += &staged(line, names);
        for rule in needed.iter().filter(|rule| stages.since(rule.consequent) == Some(k)) {
            text += &format!("    {}\n", said(rule, names));
        }
    }
    text
}

/// A stage's line, with names for its numbers and then commas between them, since a name may have blanks; the stage stays as it is.
fn staged(line: &str, names: &Names) -> String {
    match line.split_once(' ') {
        Some((stage, rest)) if names.any() => format!("{stage} {}\n", names.in_text(&rest.replace(' ', ", "))),
        _ => format!("{line}\n"),
    }
}

/// Of each number that the goal rests on and that is no assumption of the set, the first justification that gave it.
fn needed(case: &Case, stages: &Stages, goal: u32) -> Vec<Rule> {
    let mut rules: Vec<Rule> = Vec::new();
    let mut open = vec![goal];
    while let Some(n) = open.pop() {
        let Some(since) = stages.since(n).filter(|&since| since > 0) else {
            continue;
        };
        let gave = |rule: &&Rule| rule.consequent == n && rule.supports.iter().all(|s| stages.numbers[since - 1].contains(s));
        let Some(rule) = case.rules.iter().find(gave) else {
            continue;
        };
        if !rules.contains(rule) {
            rules.push(rule.clone());
            open.extend(&rule.supports);
        }
    }
    rules.sort_by(|a, b| a.consequent.cmp(&b.consequent));
    rules
}

fn said(rule: &Rule, names: &Names) -> String {
    let supports: Vec<_> = rule.supports.iter().map(|&s| names.name(s)).collect();
    match supports.len() {
        0 => format!("{} from nothing", names.name(rule.consequent)),
        _ => format!("{} from {}", names.name(rule.consequent), supports.join(", ")),
    }
}
