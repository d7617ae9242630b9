//! What the documents name: files that are there, and in them the names that they
//! are said to have; blocks that are marked with a file, whose lines it has; and the
//! crates, which are those of crates.txt.

use std::path::Path;

const DOCUMENTS: [&str; 5] =
    ["README.md", "docs/FORMAT.md", "docs/DESIGN.md", "CONTRIBUTING.md", "CHANGES.md"];
/// A name that begins with one of these, in backticks, is that of a file or folder.
const FOLDERS: [&str; 7] =
    ["crates/", "docs/", "tests/", "tools/", "examples/", "include/", ".ci/"];

pub fn text(name: &str) -> Result<String, String> {
    std::fs::read_to_string(name).map_err(|error| format!("{name}: {error}"))
}

fn is_path(name: &str) -> bool {
    FOLDERS.iter().any(|folder| name.starts_with(folder)) && !name.contains([' ', '*'])
}

/// The parts of a line that stand in backticks, each with the text before it.
fn quoted(line: &str) -> Vec<(&str, &str)> {
    let parts: Vec<&str> = line.split('`').collect();
    parts.chunks(2).filter(|pair| pair.len() == 2).map(|pair| (pair[0], pair[1])).collect()
}

/// Names listed before 'of' and a file, as in "`a`, `b` of `crates/..`", are found in the file.
fn names_before<'a>(parts: &[(&'a str, &'a str)], path: usize) -> Vec<&'a str> {
    if parts[path].0 != " of " {
        return Vec::new();
    }
    let mut names = vec![parts[path - 1].1];
    for at in (1..path).rev() {
        let is_listed = parts[at].0 == ", " || parts[at].0 == " and ";
        if !is_listed || is_path(parts[at - 1].1) {
            break;
        }
        names.push(parts[at - 1].1);
    }
    names
}

/// The files that a line names are there, with what it says they have.
fn check_line(at: &str, line: &str) -> Result<usize, String> {
    let parts = quoted(line);
    let mut count = 0;
    for (index, (_, name)) in parts.iter().enumerate().filter(|(_, (_, name))| is_path(name)) {
        if !Path::new(name).exists() {
            return Err(format!("{at}: there is no {name}"));
        }
        count += 1;
        for wanted in names_before(&parts, index) {
            if !text(name)?.contains(wanted) {
                return Err(format!("{at}: {name} has no {wanted}"));
            }
            count += 1;
        }
    }
    Ok(count)
}

/// Every line of a block that is marked with a file, as in "```rust crates/..", is in it.
fn check_blocks(name: &str, document: &str) -> Result<usize, String> {
    let (mut file, mut count) = (None, 0);
    for (number, line) in document.lines().enumerate() {
        if let Some(mark) = line.strip_prefix("```") {
            file = mark.split(' ').nth(1).map(text).transpose()?;
        } else if let Some(file) = &file {
            if !file.lines().any(|other| other.trim() == line.trim()) {
                return Err(format!("{name}:{}: its file has no such line", number + 1));
            }
            count += 1;
        }
    }
    Ok(count)
}

/// The crates in README's table are those of crates.txt, in its order.
fn check_crates() -> Result<usize, String> {
    let listed = text("crates.txt")?;
    let crates: Vec<&str> = listed
        .lines()
        .filter_map(|line| line.split_once(':'))
        .filter_map(|(named, _)| named.split(' ').next())
        .filter(|name| !name.starts_with('#'))
        .collect();
    let readme = text("README.md")?;
    let rows = readme.lines().filter(|line| line.starts_with("| `crates/"));
    let named: Vec<&str> = rows
        .flat_map(|row| quoted(row.split('|').nth(1).unwrap_or("")))
        .filter_map(|(_, name)| name.strip_prefix("crates/"))
        .collect();
    match named == crates {
        true => Ok(crates.len()),
        false => Err(format!("README.md lists crates {named:?}, crates.txt {crates:?}")),
    }
}

pub fn check() -> Result<String, String> {
    let (mut count, mut lines) = (0, 0);
    for name in DOCUMENTS {
        let document = text(name)?;
        for (number, line) in document.lines().enumerate() {
            count += check_line(&format!("{name}:{}", number + 1), line)?;
        }
        lines += check_blocks(name, &document)?;
    }
    let crates = check_crates()?;
    Ok(format!("{count} files and names in them, {lines} lines quoted, {crates} crates"))
}
