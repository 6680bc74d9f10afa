//! The planted faults as they are written in faults/: conformance/README.md describes the format.

use std::path::Path;

pub struct Fault {
    pub name: String,
    pub shows: String,
    /// The file with the fault and the line of its name.
    pub place: String,
    pub edits: Vec<Edit>,
}

/// A change to a file of src/paper. Both texts have their lines without indentation.
pub struct Edit {
    pub file: String,
    pub old: String,
    pub new: Option<String>,
}

/// The faults of all files of a folder, in the order of their names.
pub fn read_folder(folder: &Path) -> Result<Vec<Fault>, String> {
    let failed = |error: std::io::Error| format!("{}: {error}", folder.display());
    let entries = std::fs::read_dir(folder).map_err(failed)?;
    let mut paths = Vec::new();
    for entry in entries {
        paths.push(entry.map_err(failed)?.path());
    }
    paths.sort();
    let mut faults = Vec::new();
    for path in paths {
        let name = path.file_name().unwrap_or_default().to_string_lossy();
        let text = std::fs::read_to_string(&path).map_err(|error| format!("{name}: {error}"))?;
        faults.extend(read(&name, &text)?);
    }
    no_name_twice(&faults)?;
    Ok(faults)
}

fn no_name_twice(faults: &[Fault]) -> Result<(), String> {
    for (i, fault) in faults.iter().enumerate() {
        if let Some(other) = faults[..i].iter().find(|other| other.name == fault.name) {
            let (place, name) = (&fault.place, &fault.name);
            return Err(format!(
                "{place}: {name} is the name of {} too",
                other.place
            ));
        }
    }
    Ok(())
}

/// The faults of one file.
pub fn read(file: &str, text: &str) -> Result<Vec<Fault>, String> {
    let mut reader = Reader::default();
    for (index, line) in text.lines().enumerate() {
        let place = format!("faults/{file}, line {}", index + 1);
        let taken = reader.line(&place, line);
        taken.map_err(|what| format!("{place}: {what}"))?;
    }
    for fault in &reader.faults {
        let is_whole = |edit: &Edit| !edit.old.is_empty() && edit.new.is_some();
        if fault.edits.is_empty() || !fault.edits.iter().all(is_whole) {
            let Fault { place, name, .. } = fault;
            return Err(format!("{place}: {name} has no pair of old and new"));
        }
    }
    Ok(reader.faults)
}

#[derive(Default)]
struct Reader {
    faults: Vec<Fault>,
    /// The source that the edits are for; it stands until another is named.
    source: String,
}

impl Reader {
    fn line(&mut self, place: &str, line: &str) -> Result<(), String> {
        if line.trim().is_empty() {
            return Ok(());
        }
        if line.starts_with(' ') {
            return self.more(line.trim());
        }
        let Some((key, text)) = line.split_once(' ').or(line.split_once(':')) else {
            return Err(format!("`{line}` is not understood"));
        };
        match key.trim_end_matches(':') {
            "#" => self.fault(place, text)?,
            "file" => self.source = text.trim().to_string(),
            "old" => {
                let (file, old, new) = (self.source.clone(), text.trim().to_string(), None);
                self.last()?.edits.push(Edit { file, old, new });
            }
            "new" => *self.last_new()? = Some(text.trim().to_string()),
            _ => return Err(format!("`{key}` is not #, file:, old: or new:")),
        }
        Ok(())
    }

    fn fault(&mut self, place: &str, text: &str) -> Result<(), String> {
        let (name, shows) = text.split_once(": ").ok_or("`# NAME: ..` is expected")?;
        self.faults.push(Fault {
            name: name.to_string(),
            shows: shows.to_string(),
            place: place.to_string(),
            edits: Vec::new(),
        });
        Ok(())
    }

    fn last(&mut self) -> Result<&mut Fault, String> {
        self.faults
            .last_mut()
            .ok_or("no `# NAME: ..` is above".into())
    }

    fn last_new(&mut self) -> Result<&mut Option<String>, String> {
        let edit = self.last()?.edits.last_mut();
        Ok(&mut edit.ok_or("no old: is above")?.new)
    }

    /// A line that goes on with the text above it.
    fn more(&mut self, line: &str) -> Result<(), String> {
        let edit = self.last()?.edits.last_mut().ok_or("no old: is above")?;
        let text = edit.new.as_mut().unwrap_or(&mut edit.old);
        *text += "\n";
        *text += line;
        Ok(())
    }
}

/// The names and what they show, as the elements of a Rust slice.
pub fn listed(faults: &[Fault]) -> String {
    let rows = faults.iter().map(|fault| {
        let Fault { name, shows, .. } = fault;
        format!("Fault {{ name: {name:?}, shows: {shows:?} }},\n")
    });
    format!("&[\n{}]\n", rows.collect::<String>())
}
