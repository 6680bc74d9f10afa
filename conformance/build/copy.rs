//! A copy of src/paper with a switch: each function that a fault edits has its own body once more
//! for the number of the fault, changed as the edit says.

use super::edits::{Edit, Fault};
use std::collections::BTreeMap;
use std::path::Path;

/// A file of src/paper: its lines without indentation, and where the bodies of its functions stand.
struct Source {
    name: String,
    lines: Vec<String>,
    bodies: Vec<Body>,
}

/// The lines of a function between its braces.
struct Body {
    begin: usize,
    end: usize,
    /// By the number of the fault, from 1.
    changed: BTreeMap<usize, String>,
}

/// All modules of `paper` in one text, each as a block.
pub fn with_switches(source: &Path, faults: &[Fault]) -> Result<String, String> {
    let root = read(&source.join("paper.rs"))?;
    let modules = root.lines().filter_map(module);
    let sources = modules.map(|name| {
        let text = read(&source.join("paper").join(format!("{name}.rs")))?;
        Ok(Source::new(name, &text))
    });
    let mut sources = sources.collect::<Result<Vec<_>, String>>()?;
    for (index, fault) in faults.iter().enumerate() {
        for edit in &fault.edits {
            let changed = change(&mut sources, index + 1, edit);
            changed.map_err(|what| format!("{}: {}: {what}", fault.place, fault.name))?;
        }
    }
    let blocks: String = sources.iter().map(Source::write).collect();
    let own = root.lines().filter(|line| is_own(line));
    Ok(blocks + &own.collect::<Vec<_>>().join("\n"))
}

fn read(path: &Path) -> Result<String, String> {
    std::fs::read_to_string(path).map_err(|error| format!("{}: {error}", path.display()))
}

/// The name of a module that the copy has too.
fn module(line: &str) -> Option<&str> {
    line.strip_prefix("pub mod ")?.strip_suffix(';')
}

/// What of paper.rs stands in the copy as it is.
fn is_own(line: &str) -> bool {
    !line.starts_with("//!") && module(line).is_none()
}

fn change(sources: &mut [Source], number: usize, edit: &Edit) -> Result<(), String> {
    let Edit { file, old, new } = edit;
    let source = sources.iter_mut().find(|source| source.name == *file);
    let source = source.ok_or(format!("src/paper has no module {file}"))?;
    let text = source.lines.join("\n");
    let places: Vec<usize> = text.match_indices(old).map(|(at, _)| at).collect();
    let [at] = places[..] else {
        let count = places.len();
        return Err(format!(
            "old occurs {count} times in {file}, not once: {old}"
        ));
    };
    let line = text[..at].matches('\n').count();
    let last = line + old.matches('\n').count();
    let holds = |body: &&mut Body| body.begin <= line && last < body.end;
    let body = source.bodies.iter_mut().find(holds);
    let body = body.ok_or(format!("old stands outside a function of {file}: {old}"))?;
    let plain = || source.lines[body.begin..body.end].join("\n");
    let changed = body.changed.entry(number).or_insert_with(plain);
    if !changed.contains(old) {
        return Err(format!("an edit above changes it already: {old}"));
    }
    *changed = changed.replacen(old, new.as_deref().unwrap_or_default(), 1);
    Ok(())
}

impl Source {
    fn new(name: &str, text: &str) -> Source {
        let lines: Vec<&str> = text.lines().collect();
        Source {
            name: format!("{name}.rs"),
            bodies: bodies(&lines),
            lines: lines.iter().map(|line| line.trim().to_string()).collect(),
        }
    }

    fn write(&self) -> String {
        let mut text = format!("pub mod {} {{\n", self.name.trim_end_matches(".rs"));
        let mut at = 0;
        for body in &self.bodies {
            self.copy(at, body.begin, &mut text);
            if !body.changed.is_empty() {
                text += "match crate::faulty::number() {\n";
                for (number, changed) in &body.changed {
                    text += &format!("{number} => {{\n{changed}\n}}\n");
                }
                text += "_ => {\n";
            }
            self.copy(body.begin, body.end, &mut text);
            if !body.changed.is_empty() {
                text += "}\n}\n";
            }
            at = body.end;
        }
        self.copy(at, self.lines.len(), &mut text);
        text + "}\n"
    }

    fn copy(&self, from: usize, to: usize, text: &mut String) {
        let lines = self.lines[from..to].iter();
        for line in lines.filter(|line| !line.starts_with("//!")) {
            *text += line;
            *text += "\n";
        }
    }
}

/// Formatted as rustfmt does, a function ends with the first brace that stands as far in as it.
fn bodies(lines: &[&str]) -> Vec<Body> {
    let mut bodies: Vec<Body> = Vec::new();
    for (index, line) in lines.iter().enumerate() {
        let within = bodies.last().is_some_and(|body| index < body.end);
        if within || !is_function(line) {
            continue;
        }
        let indent = &line[..line.len() - line.trim_start().len()];
        let opens = lines[index..].iter().position(|line| line.ends_with('{'));
        let closing = format!("{indent}}}");
        let closes = lines[index..].iter().position(|line| *line == closing);
        if let (Some(opens), Some(closes)) = (opens, closes) {
            bodies.push(Body {
                begin: index + opens + 1,
                end: index + closes,
                changed: BTreeMap::new(),
            });
        }
    }
    bodies
}

fn is_function(line: &str) -> bool {
    let line = line.trim_start();
    ["fn ", "pub fn ", "pub(super) fn "]
        .iter()
        .any(|front| line.starts_with(front))
}
