//! Names for numbers: a text file with lines `NUMBER NAME`, empty lines and lines that begin with # passed over, and a byte order mark
//! at its head too. A name by which a listing could say something else than the library's is refused.
use crate::say;
use reasons::Set;
use std::collections::HashMap;
use std::ffi::OsStr;
use std::io::{Error, ErrorKind, Read};

/// The bytes that a file of names may have.
const MOST: u64 = 64 * 1024;

#[derive(Default)]
pub struct Names(HashMap<u32, String>);

impl Names {
    /// The names of a file, none without one; what cannot be read is said.
    pub fn of(file: Option<&OsStr>) -> Result<Names, ()> {
        let Some(file) = file else {
            return Ok(Names::default());
        };
        let text = read(file).map_err(|error| say::of_file(file, &error.to_string()))?;
        let mut names = Names::default();
        for (place, line) in text.strip_prefix('\u{feff}').unwrap_or(&text).lines().enumerate() {
            if line.trim().is_empty() || line.starts_with('#') {
                continue;
            }
            names.take(line).map_err(|what| say::of_file(file, &format!("line {}: {what}", place + 1)))?;
        }
        Ok(names)
    }

    /// The name of one line; what is wrong with it, if anything.
    fn take(&mut self, line: &str) -> Result<(), String> {
        let (number, name) = named(line).ok_or("not `NUMBER NAME`")?;
        fit(name)?;
        if self.0.contains_key(&number) {
            return Err(format!("{number} is named again"));
        }
        if self.0.values().any(|other| other == name) || (name == FALSITY && number != 0) {
            return Err(format!("{name} is the name of another number"));
        }
        self.0.insert(number, name.to_string());
        Ok(())
    }

    /// Whether there is any name.
    pub fn any(&self) -> bool {
        !self.0.is_empty()
    }

    /// The name of a number, or the number.
    pub fn name(&self, n: u32) -> String {
        self.0.get(&n).cloned().unwrap_or_else(|| n.to_string())
    }

    /// The name of a number, or the number; of 0 a word.
    pub fn title(&self, n: u32) -> String {
        match n {
            0 => self.0.get(&0).cloned().unwrap_or_else(|| FALSITY.to_string()),
            _ => self.name(n),
        }
    }

    pub fn set(&self, set: Set) -> String {
        let all: Vec<_> = set.members().map(|k| self.name(k)).collect();
        format!("{{{}}}", all.join(","))
    }

    /// A listing with names for its numbers; the first line stays as it is.
    pub fn in_listing(&self, listing: &str) -> String {
        if !self.any() {
            return listing.to_string();
        }
        let mut lines = listing.split_inclusive('\n');
        let first = lines.next().unwrap_or("").to_string();
        first + &lines.map(|line| self.in_text(line)).collect::<String>()
    }

    /// A text with names for its numbers.
    pub fn in_text(&self, text: &str) -> String {
        let mut out = String::new();
        let mut digits = String::new();
        for letter in text.chars().chain(['\0']) {
            if letter.is_ascii_digit() {
                digits.push(letter);
                continue;
            }
            if let Ok(n) = digits.parse() {
                out.push_str(&self.name(n));
            }
            digits.clear();
            if letter != '\0' {
                out.push(letter);
            }
        }
        out
    }
}

/// The words that lines and answers say of a number, and what stands between a number and its supports.
const WORDS: [&str; 6] = ["supported", "unsupported", "contradicted", "inconsistent", "nogood", "from"];

/// What 0 is called in a drawing.
const FALSITY: &str = "falsity";

fn read(file: &OsStr) -> std::io::Result<String> {
    let mut bytes = Vec::new();
    std::fs::File::open(file)?.take(MOST + 1).read_to_end(&mut bytes)?;
    if MOST < bytes.len() as u64 {
        return Err(Error::new(ErrorKind::InvalidData, "more than 65,536 bytes"));
    }
    String::from_utf8(bytes).map_err(|_| Error::new(ErrorKind::InvalidData, "not UTF-8"))
}

/// A number in digits, a blank or a tab, and the rest of the line.
fn named(line: &str) -> Option<(u32, &str)> {
    let (number, name) = line.split_once([' ', '\t'])?;
    let digits = number.bytes().all(|b| b.is_ascii_digit());
    Some((number.parse().ok().filter(|_| digits && !name.is_empty())?, name))
}

/// Whether a name can be taken for nothing else: not for a number or several, not for a part of a group, nor for another line or name.
fn fit(name: &str) -> Result<(), &'static str> {
    if name.trim() != name {
        return Err("a name that begins or ends with a blank");
    }
    if name.chars().all(|c| c.is_numeric() || c.is_whitespace()) {
        return Err("a name of digits alone");
    }
    if name.contains(['{', '}', ',']) {
        return Err("a name with {, } or a comma");
    }
    if name.split_whitespace().any(|word| WORDS.contains(&word)) {
        return Err("a name with a word of the listing");
    }
    if name.chars().any(|c| c.is_control() || unseen(c)) {
        return Err("a name with a control character");
    }
    Ok(())
}

/// Marks that are not seen, or turn the order of what is seen.
fn unseen(c: char) -> bool {
    matches!(c, '\u{200b}'..='\u{200f}' | '\u{2028}'..='\u{202e}' | '\u{2060}'..='\u{206f}' | '\u{feff}')
}
