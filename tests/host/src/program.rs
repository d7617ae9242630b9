//! The bench program and the examples, against the independent loader.

use crate::compare::hex;
use crate::inputs;
use crate::paper::gap::{Gap, MOST_TENTHS};
use crate::paper::line::{LARGEST_SHEET, TONES};
use crate::paper::printed;
use crate::paper::reading::Reading;
use crate::random::Random;
use crate::sheets::{bare, reading, rest, silence, tone};
use crate::sheets::{IN_TENTHS, RANGES, READINGS, RESTS, SAMPLE, TWINS};
use std::io::{ErrorKind, Write};
use std::path::{Path, PathBuf};
use std::process::{Command, Stdio};
use std::time::Duration;

/// How many sheets the bench program is given.
pub const SHEETS: u64 = 600;
const SEED: u64 = 2;
/// The examples that there must be.
const EXAMPLES: [&str; 9] = [
    "analyser",
    "cable_head",
    "long_cable",
    "pump_drive",
    "refused",
    "sample",
    "short_cable",
    "spliced_pair",
    "tracked_tones",
];
/// Sheets that any comparison should have, before the random ones.
const FIXED: u64 = 30;

/// A sheet as long as one that is accepted can be: 32,768 bytes, or 32,767 where the
/// gap is in tenths.
fn longest(gap: Gap) -> Vec<u8> {
    let mut commands = bare(TONES, gap, 1000);
    commands.insert(3, tone(false, TONES - 1, 9, 2, 15, 500));
    let left = LARGEST_SHEET - commands.concat().len();
    commands.splice(3..3, (0..left / 6).map(|_| silence(31, 0)));
    commands.concat()
}

/// The sheet in tenths, with another number of them.
fn in_tenths(tenths: u8) -> Vec<u8> {
    let mut sheet = IN_TENTHS.to_vec();
    sheet[4] = tenths;
    sheet
}

/// The sheet of readings, with another ratio.
fn with_ratio(ratio: f32) -> Vec<u8> {
    let mut sheet = READINGS.to_vec();
    sheet[36..40].copy_from_slice(&ratio.to_be_bytes());
    sheet
}

/// A full line on which each tone is the same reading.
fn full_of(read: Reading) -> Vec<u8> {
    let mut commands = bare(TONES, Gap::Whole(300), 5_000);
    let tones = (0..TONES).map(|number| reading(number, read, 15, 1_000));
    commands.splice(3..3, tones);
    commands.concat()
}

/// The sheet of rests, with another budget.
fn at_budget(budget: u64) -> Vec<u8> {
    let mut sheet = RESTS.to_vec();
    sheet[7..15].copy_from_slice(&budget.to_be_bytes());
    sheet
}

/// A full line on which each tone costs 5 and has a rest of 2: its rests add up to 2,048.
fn full_of_rests(budget: u64) -> Vec<u8> {
    let mut commands = bare(TONES, Gap::Whole(256), budget);
    let with_rest = |number| [tone(false, number, 5, 1, 15, 100), rest(number, 2)].concat();
    commands.splice(3..3, (0..TONES).map(with_rest));
    commands.concat()
}

fn sheet(index: u64) -> Vec<u8> {
    let long = longest(Gap::Whole(256));
    match index {
        0 => Vec::new(),
        1 => SAMPLE.to_vec(),
        2 => long,
        3 => [&long[..], &[7]].concat(),
        4 => [&SAMPLE[..], &[7; LARGEST_SHEET]].concat(),
        5 => [&long[..], &long[..]].concat(),
        6 => [&SAMPLE[..], &[0; 200_000]].concat(),
        7 => vec![1; LARGEST_SHEET + 1],
        8 => long[..LARGEST_SHEET - 1].to_vec(),
        9 => IN_TENTHS.to_vec(),
        10 => in_tenths(MOST_TENTHS),
        11 => in_tenths(MOST_TENTHS + 1),
        12 => longest(Gap::Tenths(100)),
        13 => READINGS.to_vec(),
        14 => with_ratio(f32::INFINITY),
        15 => with_ratio(f32::MAX),
        16 => full_of(Reading::NoiseAndGain(3.0_f32.to_bits(), 2.0_f32.to_bits())),
        17 => full_of(Reading::Ratio(1)),
        18 => RESTS.to_vec(),
        // Its rests add up to 66,061, and the first step is 23.
        19 => at_budget(66_060),
        20 => at_budget(66_061),
        21 => at_budget(66_061 + 23),
        // The steps of tones 0 to 255 fit, and not that of tone 256.
        22 => full_of_rests(2_048 + 3 * 256),
        23 => full_of_rests(2_047),
        24 => TWINS.to_vec(),
        // It ends between the bytes of a tone.
        25 => TWINS[..17].to_vec(),
        26 => [&[1, 4, 1], &TWINS[3..]].concat(),
        27 => RANGES.to_vec(),
        // It ends inside a high noise, and has one below the noise.
        28 => RANGES[..33].to_vec(),
        29 => [&RANGES[..33], &[2], &RANGES[34..]].concat(),
        FIXED.. => inputs::sheet(&mut Random::new(SEED, index), index),
    }
}

/// What the program prints for a sheet, which may arrive in pieces.
fn output(program: &Path, sheet: &[u8], in_pieces: bool) -> Result<String, String> {
    let told = |error: std::io::Error| format!("cannot run {}: {error}", program.display());
    let mut child = Command::new(program)
        .stdin(Stdio::piped())
        .stdout(Stdio::piped())
        .stderr(Stdio::piped())
        .spawn()
        .map_err(told)?;
    let mut stdin = child.stdin.take().expect("a pipe");
    let pieces = if in_pieces { 3 } else { 1 };
    for piece in sheet.chunks(sheet.len() / pieces + 1) {
        match stdin.write_all(piece) {
            // It need not read what comes after the longest sheet.
            Err(error) if error.kind() == ErrorKind::BrokenPipe => break,
            result => result.map_err(told)?,
        }
        if in_pieces {
            std::thread::sleep(Duration::from_millis(2));
        }
    }
    drop(stdin);
    let output = child.wait_with_output().map_err(told)?;
    if output.status.code().is_none() {
        return Err(format!("the program stopped: {}", output.status));
    }
    if !output.stderr.is_empty() {
        return Err("the program wrote to standard error".to_string());
    }
    Ok(String::from_utf8_lossy(&output.stdout).into_owned())
}

/// All that the program printed, against what is expected of it.
fn same(program: &Path, sheet: &[u8], in_pieces: bool, expected: &str) -> Result<(), String> {
    let printed = output(program, sheet, in_pieces)
        .unwrap_or_else(|failure| format!("(nothing: {failure})\n"));
    if printed == expected {
        return Ok(());
    }
    let given = format!("bench program\n  sheet, {} bytes: {}\n", sheet.len(), hex(sheet));
    Err(format!("{given}printed:\n{printed}expected:\n{expected}"))
}

/// One sheet of the comparison; every fourth arrives in pieces.
pub fn one(program: &Path, index: u64) -> Result<String, String> {
    let sheet = sheet(index);
    let expected = printed(&sheet);
    match same(program, &sheet, index % 4 == 3, &expected) {
        Ok(()) => Ok(format!("sheet, {} bytes: {}\nboth:\n{expected}", sheet.len(), hex(&sheet))),
        Err(failure) => Err(format!("{failure}again: tests/run --one bench {index}")),
    }
}

pub fn compare(program: &Path) -> Result<String, String> {
    let mut too_long = 0;
    for index in 0..SHEETS {
        one(program, index)?;
        too_long += u64::from(sheet(index).len() > LARGEST_SHEET);
    }
    Ok(format!("{SHEETS} sheets, {too_long} of them over {LARGEST_SHEET} bytes"))
}

/// A sheet in readable hex: blanks between the bytes, comments from # on.
fn from_hex(text: &str) -> Result<Vec<u8>, String> {
    let code = |line: &'_ str| line.split('#').next().unwrap_or("").to_string();
    let text: String = text.lines().map(|line| code(line) + " ").collect();
    let byte = |word: &str| match (word.len(), u8::from_str_radix(word, 16)) {
        (2, Ok(byte)) => Ok(byte),
        _ => Err(format!("'{word}' is not a byte in hex")),
    };
    text.split_whitespace().map(byte).collect()
}

fn text(path: &Path) -> Result<String, String> {
    std::fs::read_to_string(path).map_err(|error| format!("{}: {error}", path.display()))
}

/// What the bench program is to print for a sheet in readable hex.
pub fn printed_for(path: &Path) -> Result<String, String> {
    Ok(printed(&from_hex(&text(path)?)?))
}

/// One example: the .out is right, and the program prints it.
pub fn example(program: &Path, path: &Path) -> Result<(), String> {
    let name = path.file_stem().unwrap_or_default().to_string_lossy();
    let told =
        |failure| format!("example {name}: {failure}\nagain: tests/run --one example {name}");
    let sheet = from_hex(&text(path)?).map_err(told)?;
    let expected = text(&path.with_extension("out"))?;
    if expected != printed(&sheet) {
        return Err(told(format!("its .out should be\n{}", printed(&sheet))));
    }
    same(program, &sheet, false, &expected).map_err(told)
}

/// Every sheet of a folder, the named ones among them; a file of any other kind
/// than a sheet, its output or a program is a mistake.
pub fn examples(program: &Path, folder: &Path) -> Result<String, String> {
    let told = |error: std::io::Error| format!("{}: {error}", folder.display());
    let mut paths: Vec<PathBuf> = Vec::new();
    for entry in std::fs::read_dir(folder).map_err(told)? {
        paths.push(entry.map_err(told)?.path());
    }
    paths.sort();
    let mut count = 0;
    for name in EXAMPLES {
        if !paths.contains(&folder.join(name).with_extension("hex")) {
            return Err(format!("{} has no example {name}", folder.display()));
        }
    }
    for path in &paths {
        let other = |extension| paths.contains(&path.with_extension(extension));
        match path.extension().and_then(|extension| extension.to_str()) {
            Some("hex") => {
                example(program, path)?;
                count += 1;
            }
            Some("out") if other("hex") => {}
            Some("c") => {}
            _ => return Err(format!("{} is no example", path.display())),
        }
    }
    Ok(format!("{count} sheets"))
}
