//! The mutants of a crate.

use crate::rules::RULES;
use crate::site::{Edit, Site};
use crate::source::{parts, tokens};
use std::collections::HashSet;
use std::fs;

/// A source file with one edit, and how to speak of it.
pub struct Mutant {
    pub file: String,
    pub line: usize,
    /// The function, and the line in it.
    pub place: String,
    pub old: String,
    pub new: String,
    /// The whole file.
    pub text: String,
}

/// All mutants of a crate, by rule.
pub fn by_rule(name: &str) -> Vec<Vec<Mutant>> {
    let folder = format!("crates/{name}/src");
    let mut files: Vec<String> = fs::read_dir(&folder)
        .unwrap_or_else(|_| panic!("no folder {folder}"))
        .map(|entry| {
            format!(
                "{folder}/{}",
                entry.expect("a file").file_name().to_string_lossy()
            )
        })
        .collect();
    files.sort();
    let mut seen = HashSet::new();
    RULES
        .iter()
        .map(|(_, edits)| {
            let mut found: Vec<Mutant> = files.iter().flat_map(|f| in_file(f, *edits)).collect();
            found.retain(|mutant| seen.insert(mutant.text.clone()));
            found
        })
        .collect()
}

/// The mutants of a file by one rule.
fn in_file(file: &str, edits: fn(&Site) -> Vec<Edit>) -> Vec<Mutant> {
    let text = fs::read_to_string(file).expect("a source");
    let tokens = tokens(&text);
    let mut found = Vec::new();
    for part in &parts(&tokens) {
        let site = Site {
            file: &text,
            tokens: &tokens,
            part,
        };
        found.extend(edits(&site).iter().map(|edit| mutant(file, &site, edit)));
    }
    found
}

fn mutant(file: &str, site: &Site, edit: &Edit) -> Mutant {
    let text = site.file;
    let line_of = |at: usize| text[..at].matches('\n').count();
    let from = text[..edit.start].rfind('\n').map_or(0, |n| n + 1);
    let to = edit.end + text[edit.end..].find('\n').unwrap_or(0);
    let line = line_of(edit.start);
    Mutant {
        file: file.to_string(),
        line: line + 1,
        place: format!("{}+{}", site.part.name, line - line_of(site.part.start)),
        old: squeezed(&text[from..to]),
        new: squeezed(&[&text[from..edit.start], &edit.new, &text[edit.end..to]].concat()),
        text: [&text[..edit.start], &edit.new, &text[edit.end..]].concat(),
    }
}

/// On one line, with single spaces.
fn squeezed(text: &str) -> String {
    text.split_whitespace().collect::<Vec<_>>().join(" ")
}
