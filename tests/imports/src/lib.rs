//! Imports that a file of Rattle or antt does not use.
//!
//! A name is used if it occurs as a word outside of imports and comments; for an operator such as `◌+◌`, each of its signs
//! must occur. What `pub use` brings in is passed on, and counts as used, and so does a trait that is given no name.

use std::collections::HashSet;

#[derive(Clone, Copy, PartialEq, Eq)]
pub enum Language {
    Rattle,
    Antt,
}

impl Language {
    /// By the end of a file's name.
    pub fn of(file: &str) -> Option<Self> {
        let (_, end) = file.rsplit_once('.')?;
        match end {
            "rt" => Some(Language::Rattle),
            "antt" => Some(Language::Antt),
            _ => None,
        }
    }

    fn comment(self) -> &'static str {
        match self {
            Language::Rattle => "//",
            Language::Antt => "--",
        }
    }
}

/// The names that a text imports and does not use, in the order of the imports.
pub fn unused(language: Language, text: &str) -> Vec<String> {
    let lines = text.lines().map(|line| without_comment(language, line));
    let (imports, rest) = parted(&lines.collect::<Vec<_>>());
    let mut used: HashSet<&str> = rest.iter().flat_map(|line| words(line)).collect();
    if language == Language::Rattle {
        // In `read<R: Read>` there are four words.
        let parts = used.iter().flat_map(|word| word.split(['<', '>']));
        used = parts.chain(used.iter().copied()).collect();
    }
    let names = imports.iter().flat_map(|import| names(import));
    let unused = names.filter(|name| !signs(name).iter().all(|sign| used.contains(sign)));
    unused.map(str::to_string).collect()
}

/// A comment begins with its sign, before which there is a space or nothing; `a--b` is a name in antt.
fn without_comment(language: Language, line: &str) -> &str {
    let mut ends = line.match_indices(language.comment());
    let begins = |at: usize| line[..at].chars().last().map_or(true, char::is_whitespace);
    ends.find(|(at, _)| begins(*at))
        .map_or(line, |(at, _)| &line[..at])
}

/// The imports, each as one line, and all other lines.
fn parted<'a>(lines: &[&'a str]) -> (Vec<String>, Vec<&'a str>) {
    let mut imports = Vec::new();
    let mut rest = Vec::new();
    let mut open = false;
    for line in lines {
        let words: Vec<&str> = line.split_whitespace().take(3).collect();
        if open {
            let import: &mut String = imports.last_mut().expect("an import is open");
            import.push_str(line);
        } else if words.contains(&"use") {
            imports.push(line.to_string());
        } else {
            rest.push(*line);
            continue;
        }
        open = imports
            .last()
            .is_some_and(|import| import.contains('{') && !import.contains('}'));
    }
    (imports, rest)
}

/// The names that an import brings in. `self` in braces is the module before them.
fn names(import: &str) -> Vec<&str> {
    let import = import.trim().trim_end_matches(';');
    if import.split_whitespace().any(|word| word == "pub") || import.ends_with(" as _") {
        return Vec::new();
    }
    let last = |name: &'_ str| name.rfind([' ', '.', ':']).map_or(0, |at| at + 1);
    match import.split_once('{') {
        Some((module, listed)) => listed
            .trim_end_matches('}')
            .split(',')
            .map(str::trim)
            .filter(|name| !name.is_empty())
            .map(|name| match name {
                "self" => {
                    let module = module.trim_end_matches("::");
                    &module[last(module)..]
                }
                _ => &name[name.rfind(' ').map_or(0, |at| at + 1)..],
            })
            .collect(),
        None => vec![&import[last(import)..]],
    }
}

/// What has to stand in the text: the name, or the signs of an operator.
fn signs(name: &str) -> Vec<&str> {
    let plain = name.chars().all(|c| c.is_alphanumeric() || c == '_');
    if plain {
        return vec![name];
    }
    name.split('◌').filter(|sign| !sign.is_empty()).collect()
}

/// A name without Rattle's `!` or `&` before it. Signs alone stay, such as `&&`.
fn without_prefix(word: &str) -> &str {
    let name = word.trim_start_matches(['!', '&']);
    if name.is_empty() {
        word
    } else {
        name
    }
}

/// The words of a line. Brackets, commas and stops part words; an empty list is a word. What follows a stop at once is a
/// field, and so is what an equals sign follows at the beginning of a line, after a brace or after a semicolon: neither is
/// the use of a name.
fn words(line: &str) -> Vec<&str> {
    let apart = |c: char| c.is_whitespace() || "(){}[],;.:⟦⟧⌜⌝«»".contains(c);
    let mut found = Vec::new();
    let mut at = 0;
    for word in line.split(apart) {
        let before = &line[..at];
        let after = line[at + word.len()..].trim_start();
        let given = after.starts_with('=')
            && before
                .trim_end()
                .chars()
                .last()
                .map_or(true, |c| "{;".contains(c));
        if !word.is_empty() && !before.ends_with('.') && !given {
            found.push(without_prefix(word));
        }
        at += word.len();
        at += line[at..].chars().next().map_or(0, char::len_utf8);
    }
    if line.contains("[]") {
        found.push("[]");
    }
    found
}
