//! Writes a copy of a source for each fault of a table.
//!
//! `mutate TABLE SOURCE FOLDER`. A fault is a line `== name`, the old lines,
//! each behind a `-`, and the new ones, each behind a `+`. The old text must
//! stand in the source exactly once. The table's first line is `# N faults`
//! and each section begins with `# --- name: N faults ---`; a table that has
//! lost a fault, or a section all of its faults, is refused. Other lines that
//! begin with `#` say something to the reader. The names of the faults are
//! printed, one a line.

use std::process::ExitCode;
use std::{env, fs};

struct Fault {
    name: String,
    old: Vec<String>,
    new: Vec<String>,
}

/// A section's name, the count of faults that it tells, and its faults.
struct Section {
    name: String,
    told: usize,
    faults: Vec<Fault>,
}

fn main() -> ExitCode {
    match write_all(&env::args().skip(1).collect::<Vec<_>>()) {
        Ok(()) => ExitCode::SUCCESS,
        Err(complaint) => {
            eprintln!("mutate: {complaint}");
            ExitCode::FAILURE
        }
    }
}

fn write_all(words: &[String]) -> Result<(), String> {
    let [table, source, folder] = words else {
        return Err("wants TABLE SOURCE FOLDER".to_string());
    };
    let read = |path: &String| fs::read_to_string(path).map_err(|e| format!("{path}: {e}"));
    let (table, source) = (read(table)?, read(source)?);
    for fault in faults(&table)? {
        let changed = apply(&fault, &source)?;
        let path = format!("{folder}/{}.c", fault.name);
        fs::write(&path, changed).map_err(|e| format!("{path}: {e}"))?;
        println!("{}", fault.name);
    }
    Ok(())
}

/// The faults of a table that has as many as it tells, each name once.
fn faults(table: &str) -> Result<Vec<Fault>, String> {
    let first = table.lines().next().and_then(told_first);
    let told = first.ok_or("the first line is not `# N faults`")?;
    let sections = sections(table)?;
    let lossy = |each: &&Section| each.told == 0 || each.told != each.faults.len();
    if let Some(Section { name, told, faults }) = sections.iter().find(lossy) {
        return Err(format!("{name}: tells {told} faults, has {}", faults.len()));
    }
    let all: Vec<Fault> = sections.into_iter().flat_map(|each| each.faults).collect();
    if all.len() != told {
        return Err(format!("the table tells {told} faults, has {}", all.len()));
    }
    let mut names: Vec<&String> = all.iter().map(|fault| &fault.name).collect();
    names.sort();
    match names.windows(2).find(|pair| pair[0] == pair[1]) {
        Some(pair) => Err(format!("{} stands twice in the table", pair[0])),
        None => Ok(all),
    }
}

/// The count of the line `# N faults`.
fn told_first(line: &str) -> Option<usize> {
    let count = line.strip_prefix("# ")?.strip_suffix(" faults")?;
    count.parse().ok()
}

/// An empty section from its line `# --- name: N faults ---`.
fn section(line: &str) -> Option<Section> {
    let text = line.strip_prefix("# --- ")?.strip_suffix(" faults ---")?;
    let (name, count) = text.rsplit_once(": ")?;
    Some(Section {
        name: name.to_string(),
        told: count.parse().ok()?,
        faults: Vec::new(),
    })
}

fn sections(table: &str) -> Result<Vec<Section>, String> {
    let mut all: Vec<Section> = Vec::new();
    for line in table.lines() {
        if line.starts_with("# ---") {
            let next = section(line).ok_or(format!("not a section's line: {line}"))?;
            all.push(next);
        } else if !line.is_empty() && !line.starts_with('#') {
            let last = all.last_mut().ok_or("a line before the first section")?;
            take(&mut last.faults, line)?;
        }
    }
    Ok(all)
}

/// A line of a fault: its name, or an old or new line of its text.
fn take(faults: &mut Vec<Fault>, line: &str) -> Result<(), String> {
    if let Some(name) = line.strip_prefix("== ") {
        faults.push(Fault {
            name: name.to_string(),
            old: Vec::new(),
            new: Vec::new(),
        });
        return Ok(());
    }
    let fault = faults.last_mut().ok_or("a line before the first name")?;
    match line.split_at(1) {
        ("-", text) => fault.old.push(text.to_string()),
        ("+", text) => fault.new.push(text.to_string()),
        _ => return Err(format!("not a line of a fault: {line}")),
    }
    Ok(())
}

fn apply(fault: &Fault, source: &str) -> Result<String, String> {
    let (old, new) = (fault.old.join("\n"), fault.new.join("\n"));
    if old.is_empty() || old == new {
        return Err(format!("{} changes nothing", fault.name));
    }
    match source.matches(&old).count() {
        1 => Ok(source.replacen(&old, &new, 1)),
        count => Err(format!("{}: old text found {count} times", fault.name)),
    }
}
