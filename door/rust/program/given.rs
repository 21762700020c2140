//! What stands on the command line after the command's name.
use std::ffi::OsString;

#[derive(Default)]
pub struct Given {
    pub help: bool,
    pub title: bool,
    pub none: bool,
    pub names: Option<OsString>,
    pub words: Vec<OsString>,
}

impl Given {
    /// The options that the command takes stand anywhere before `--`; `-` alone is a word.
    pub fn of(all: &[OsString], options: &[&str]) -> Result<Given, String> {
        let mut given = Given::default();
        let mut rest = all.iter();
        while let Some(word) = rest.next() {
            match word.to_str() {
                Some("--help" | "-h") => given.help = true,
                Some("--title") if options.contains(&"--title") => given.title = true,
                Some("--none") if options.contains(&"--none") => given.none = true,
                Some("--names") if options.contains(&"--names") && given.names.is_some() => return Err("--names twice".to_string()),
                Some("--names") if options.contains(&"--names") => given.names = Some(rest.next().ok_or("--names wants a file")?.clone()),
                Some("--") => {
                    given.words.extend(rest.cloned());
                    break;
                }
                Some(other) if other.len() > 1 && other.starts_with('-') => return Err(format!("no option {other}")),
                _ => given.words.push(word.clone()),
            }
        }
        Ok(given)
    }
}

/// A number in digits alone.
pub fn number(word: &OsString) -> Result<u32, String> {
    let text = word.to_string_lossy();
    if text.is_empty() || !text.bytes().all(|b| b.is_ascii_digit()) {
        return Err(format!("{text} is no number"));
    }
    // every number that does not fit is above all numbers of a case
    Ok(text.parse().unwrap_or(u32::MAX))
}
