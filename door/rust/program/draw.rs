//! Graphviz text of justifications.
use crate::case::{Case, Rule, Stages};
use crate::given::{number, Given};
use crate::names::Names;
use crate::{say, store_of, usage, BAD};
use reasons::{Refusal, Set, Store};

pub fn draw(given: &Given) -> u8 {
    let (file, n) = match &given.words[..] {
        [file] => (file, None),
        [file, n] => match number(n) {
            Ok(n) => (file, Some(n)),
            Err(what) => return usage("draw", &what),
        },
        _ => return usage("draw", "a file, and at most one number"),
    };
    let Ok(names) = Names::of(given.names.as_deref()) else {
        return BAD;
    };
    let store = match store_of(file, false) {
        Ok(store) => store,
        Err(status) => return status,
    };
    say::told(drawn(&store, n, &names))
}

fn drawn(store: &Store, n: Option<u32>, names: &Names) -> Result<String, Refusal> {
    let case = Case::of(store);
    let mut text = String::from("digraph reasons {\n    rankdir=BT;\n    node [fontname=\"sans-serif\"];\n");
    match n {
        Some(n) => {
            text += &format!("    label={};\n    fontname=\"sans-serif\";\n", quoted(&caption(store, n, names)?));
            text += &groups(store, &case, n, names)?;
        }
        None => text += &part("", &case.rules, &(0..=case.top()).collect::<Vec<_>>(), |m| Ok(noted(&case, m, &titled(store, m, names)?)))?,
    }
    Ok(text + "}\n")
}

/// What each group of n's line carries it by: of several groups each in a frame, so that no two ways are drawn into one.
fn groups(store: &Store, case: &Case, n: u32, names: &Names) -> Result<String, Refusal> {
    let label = store.label(n)?;
    let node = |m| Ok(noted(case, m, &names.title(m)));
    if let [] | [_] = label[..] {
        let rules = label.first().map_or(Vec::new(), |&set| resting(store, case, n, set));
        return part("", &rules, &shown(&rules, n), node);
    }
    let mut text = String::new();
    for (place, &set) in label.iter().enumerate() {
        let rules = resting(store, case, n, set);
        text += &format!("    subgraph cluster{place} {{\n    label={};\n", quoted(&names.set(set)));
        text += &part(&format!("g{place}"), &rules, &shown(&rules, n), node)?;
        text += "    }\n";
    }
    Ok(text)
}

/// Numbers and justifications; `before` tells the nodes of one frame from those of another.
fn part(before: &str, rules: &[Rule], shown: &[u32], node: impl Fn(u32) -> Result<String, Refusal>) -> Result<String, Refusal> {
    let mut text = String::new();
    for &m in shown {
        text += &format!("    {before}n{m} {};\n", node(m)?);
    }
    for (place, rule) in rules.iter().enumerate() {
        text += &edges(before, place, rule);
    }
    Ok(text)
}

/// The numbers of the justifications, and n.
fn shown(rules: &[Rule], n: u32) -> Vec<u32> {
    let mut all: Vec<u32> = rules.iter().flat_map(|r| r.supports.iter().copied().chain([r.consequent])).chain([n]).collect();
    all.sort_unstable();
    all.dedup();
    all
}

/// The justifications by which n rests on a group, from n backward: those that give their consequent at a later stage than each of their
/// supports first follows at. So none is its own reason by way of others.
fn resting(store: &Store, case: &Case, n: u32, group: Set) -> Vec<Rule> {
    let stages = Stages::of(store, group);
    let gives = |rule: &Rule| {
        let since = stages.since(rule.consequent).unwrap_or(0);
        since > 0 && rule.supports.iter().all(|&s| stages.since(s).is_some_and(|first| first < since))
    };
    let given: Vec<&Rule> = case.rules.iter().filter(|rule| gives(rule)).collect();
    let mut seen = vec![n];
    let mut next = 0;
    while next < seen.len() {
        let of = seen[next];
        for rule in given.iter().filter(|rule| rule.consequent == of) {
            let fresh: Vec<u32> = rule.supports.iter().copied().filter(|s| !seen.contains(s)).collect();
            seen.extend(fresh);
        }
        next += 1;
    }
    given.into_iter().filter(|rule| seen.contains(&rule.consequent)).cloned().collect()
}

/// The shape and the words of a node.
fn noted(case: &Case, n: u32, words: &str) -> String {
    format!("[shape={}, label={}]", shape(case, n), quoted(words))
}

fn shape(case: &Case, n: u32) -> &'static str {
    match n {
        0 => "octagon",
        n if n <= case.assumptions => "box",
        _ => "ellipse",
    }
}

/// The name of n, and beneath it the members of its label; of one that has none, the word of its line.
fn titled(store: &Store, n: u32, names: &Names) -> Result<String, Refusal> {
    let all: Vec<String> = store.label(n)?.into_iter().map(|set: Set| names.set(set)).collect();
    let beneath = match all.is_empty() && n != 0 {
        true => store.line(n)?.split_whitespace().nth(1).unwrap_or("").to_string(),
        false => all.join(" "),
    };
    Ok(format!("{}\n{beneath}", names.title(n)))
}

/// The line of n without its newline.
fn caption(store: &Store, n: u32, names: &Names) -> Result<String, Refusal> {
    Ok(names.in_text(store.line(n)?.trim_end()))
}

/// One support: an arrow. None or several: they meet in a point.
fn edges(before: &str, place: usize, rule: &Rule) -> String {
    let to = rule.consequent;
    if let [from] = rule.supports[..] {
        return format!("    {before}n{from} -> {before}n{to};\n");
    }
    let mut text = format!("    {before}j{place} [shape=point];\n");
    for from in &rule.supports {
        text += &format!("    {before}n{from} -> {before}j{place} [dir=none];\n");
    }
    text + &format!("    {before}j{place} -> {before}n{to};\n")
}

/// In quotes; & begins the name of a letter there.
fn quoted(text: &str) -> String {
    let text = text.replace('&', "&amp;").replace('\\', "\\\\").replace('"', "\\\"").replace('\n', "\\n");
    format!("\"{text}\"")
}
