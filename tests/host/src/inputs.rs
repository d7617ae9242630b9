//! What a call is given: sheet, starting table, target, list of budgets and buffer
//! lengths, all from a seed and an index. Seed 0 is the sample sheet of document 01, then
//! one with its gap in tenths of a decibel, one with readings, one with rests, one with high
//! noises, one of 1,024 tones with twins, and then a list of budgets, each with one byte
//! changed, cut off or added, in every way; other seeds are random.

use crate::damage::{damaged, WAYS};
use crate::lists::{powers, to_bytes, Around};
use crate::paper::budgets::{BYTES_A_BUDGET, BYTES_OF_TOTALS};
use crate::paper::line::{read_bytes, Line, LARGEST_POWER, TONES};
use crate::paper::run::Running;
use crate::paper::{tidy_length, ANSWER_BYTES, BYTES_A_LIMIT, BYTES_A_TONE};
use crate::random::Random;
use crate::sheets::{commands, IN_TENTHS, RANGES, READINGS, RESTS, SAMPLE, TWINS};

#[derive(Clone, Default)]
pub struct Input {
    pub sheet: Vec<u8>,
    pub start: Vec<u8>,
    pub target: u32,
    pub list: Vec<u8>,
    /// What the lent buffers hold before the call.
    pub table: Vec<u8>,
    pub tidy: Vec<u8>,
    pub answer: Vec<u8>,
    pub limits: Vec<u8>,
    pub totals: Vec<u8>,
}

/// A sheet of seed 0, and what its calls are given with it.
struct Sample {
    sheet: &'static [u8],
    start: &'static [u8],
    target: u32,
    list: [u64; BUDGETS],
}

/// How many budgets the samples have.
const BUDGETS: usize = 5;

/// One bit on tones 256 and 1,023.
const START_OF_TWINS: [u8; TONES] = {
    let mut start = [0; TONES];
    start[256] = 1;
    start[1023] = 1;
    start
};

const SAMPLES: [Sample; 6] = [
    Sample { sheet: &SAMPLE, start: &[0, 2, 3], target: 6, list: [2, 38, 39, 39, LARGEST_POWER] },
    Sample {
        sheet: &IN_TENTHS,
        start: &[0, 2, 3],
        target: 6,
        list: [0, 2_559, 2_560, 70_000, LARGEST_POWER],
    },
    Sample {
        sheet: &READINGS,
        start: &[0, 2, 3],
        target: 6,
        list: [0, 1_000_000_000, 1_000_000_000, 1 << 36, LARGEST_POWER],
    },
    // Both leave tone 1 at no bits: the re-fit by its first step. The budgets begin with
    // the sum of the rests.
    Sample {
        sheet: &RESTS,
        start: &[0, 1, 0],
        target: 3,
        list: [66_061, 66_062, 262_143, 262_144, LARGEST_POWER],
    },
    // The budgets begin with the rest.
    Sample { sheet: &RANGES, start: &[0, 2, 3], target: 4, list: [1, 29, 30, 38, LARGEST_POWER] },
    // The target and the re-fit leave tone 1,023 at no bits, by its number alone. The
    // budgets begin with the sum of the rests.
    Sample { sheet: &TWINS, start: &START_OF_TWINS, target: 2, list: [4, 6, 7, 10, LARGEST_POWER] },
];

/// How many inputs some bytes of seed 0 make: each byte at each value, each cut, each
/// byte added.
const fn changes(length: usize) -> usize {
    256 * length + length + 256
}

/// How many inputs seed 0 has: of each sheet, and of the last one's list.
pub const SAMPLE_INPUTS: u64 = {
    let mut inputs = changes(BYTES_A_BUDGET * BUDGETS);
    let mut sample = 0;
    while sample < SAMPLES.len() {
        inputs += changes(SAMPLES[sample].sheet.len());
        sample += 1;
    }
    inputs as u64
};

pub fn input(seed: u64, index: u64) -> Input {
    let mut random = Random::new(seed, index);
    if seed == 0 {
        return sample_input(&mut random, index as usize);
    }
    let sheet = sheet(&mut random, index);
    // Where 16 refuses the sheet, what 8 to 11 would say of the line is at hand too.
    match read_bytes(&sheet) {
        Ok(line) => input_for(&mut random, sheet, &line),
        Err(_) => input_for_refused(&mut random, sheet),
    }
}

/// Three sheets of five are valid, the others damaged in each way by turns.
pub fn sheet(random: &mut Random, index: u64) -> Vec<u8> {
    match index % 5 {
        0..=2 => commands(random).concat(),
        part => damaged(random, (index / 5 * 2 + part - 3) as usize % WAYS),
    }
}

/// A sheet or a list with the change of an index.
fn changed(bytes: &[u8], index: usize) -> Vec<u8> {
    let mut bytes = bytes.to_vec();
    let (length, value) = (bytes.len(), (index % 256) as u8);
    match index / 256 {
        place if place < length => bytes[place] = value,
        _ if index < 257 * length => bytes.truncate(index - 256 * length),
        _ => bytes.push(value),
    }
    bytes
}

/// The input of an index of seed 0.
fn sample_input(random: &mut Random, mut index: usize) -> Input {
    for sample in &SAMPLES {
        let changes = changes(sample.sheet.len());
        if index < changes {
            let sheet = changed(sample.sheet, index);
            return input_like(random, sample, sheet, to_bytes(&sample.list));
        }
        index -= changes;
    }
    let sample = &SAMPLES[SAMPLES.len() - 1];
    let list = changed(&to_bytes(&sample.list), index);
    input_like(random, sample, sample.sheet.to_vec(), list)
}

/// A sample's input with another sheet or list.
fn input_like(random: &mut Random, sample: &Sample, sheet: Vec<u8>, list: Vec<u8>) -> Input {
    let tones = read_bytes(&sheet).map_or(0, |line| line.tones);
    Input {
        sheet,
        start: sample.start.to_vec(),
        target: sample.target,
        list,
        table: random.bytes(BYTES_A_TONE * tones + 40),
        tidy: random.bytes(TWINS.len() + 3),
        answer: random.bytes(ANSWER_BYTES + 8),
        limits: random.bytes(BYTES_A_LIMIT * tones + 40),
        totals: random.bytes(BYTES_OF_TOTALS * BUDGETS + 8),
    }
}

/// A buffer length: mostly enough for what is needed, else short of it.
fn length(random: &mut Random, needed: usize) -> usize {
    match random.below(20) {
        0..=10 => needed,
        11 | 12 => needed + 1,
        13..=15 => needed + 2 + random.below(80),
        16 => needed + 3000,
        17 => needed.saturating_sub(1),
        18 => random.below(needed.max(1)),
        _ => 0,
    }
}

fn lent(random: &mut Random, needed: usize) -> Vec<u8> {
    let length = length(random, needed);
    random.bytes(length)
}

fn input_for_refused(random: &mut Random, sheet: Vec<u8>) -> Input {
    let most = if random.once_in(20) { TONES as u64 } else { 256 };
    let tones = random.between(1, most) as usize;
    let length = length(random, tones);
    let start = random.bytes(length).iter().map(|byte| byte % 4).collect();
    let input = Input {
        start,
        target: random.between(0, 40) as u32,
        table: lent(random, BYTES_A_TONE * tones),
        tidy: lent(random, sheet.len().min(5000)),
        answer: lent(random, ANSWER_BYTES),
        limits: lent(random, BYTES_A_LIMIT * tones),
        list: Vec::new(),
        totals: Vec::new(),
        sheet,
    };
    let around = Around::any(random);
    with_list(random, around, input)
}

fn input_for(random: &mut Random, sheet: Vec<u8>, line: &Line) -> Input {
    let mut run = Running::nothing(line);
    let limits = run.limit[..line.tones].to_vec();
    let mut all = powers(&mut run);
    let input = Input {
        start: start(random, &limits, &run.bits[..line.tones]),
        target: target(random, &limits, run.total_bits as u32),
        table: lent(random, BYTES_A_TONE * line.tones),
        tidy: lent(random, tidy_length(line)),
        answer: lent(random, ANSWER_BYTES),
        limits: lent(random, BYTES_A_LIMIT * line.tones),
        list: Vec::new(),
        totals: Vec::new(),
        sheet,
    };
    run.budget = LARGEST_POWER;
    all.extend(powers(&mut run));
    with_list(random, Around::line(line, all), input)
}

/// With a list of budgets, and a buffer for its totals.
fn with_list(random: &mut Random, around: Around, input: Input) -> Input {
    let list = around.list(random);
    let totals = lent(random, BYTES_OF_TOTALS * (list.len() / BYTES_A_BUDGET));
    Input { list, totals, ..input }
}

/// At an end of what can be carried, next to it, or any.
fn target(random: &mut Random, limits: &[u8], carried: u32) -> u32 {
    let total: u32 = limits.iter().map(|bits| u32::from(*bits)).sum();
    match random.below(10) {
        0 => 0,
        1 => random.between(1, 4) as u32,
        2 => total,
        3 => total + 1,
        4 => carried,
        5 => carried + 1,
        6 => random.pick(&[u32::MAX, u32::MAX - 1, 1 << 31, 65_536]),
        7 => random.next() as u32,
        8 => random.between(0, u64::from(total)) as u32,
        _ => random.between(0, u64::from(carried)) as u32,
    }
}

/// A starting table within the limits, over them, or of a wrong length.
fn start(random: &mut Random, limits: &[u8], loaded: &[u8]) -> Vec<u8> {
    let mut start = start_within(random, limits, loaded);
    let tones = limits.len();
    match random.below(12) {
        0 => {
            for _ in 0..random.pick(&[1, 1, 2, 5]) {
                let tone = random.below(tones);
                start[tone] = limits[tone] + 1;
            }
        }
        1 => start[random.below(tones)] = random.pick(&[8, 15, 16, 128, 255]),
        2 => {
            let length = random.pick(&[0, tones - 1, tones + 1, 2 * tones, 256, TONES, 9 * tones]);
            start.resize(length, random.pick(&[0, 1, 255]));
        }
        3 if random.once_in(3) => start = random.bytes(tones),
        _ => {}
    }
    start
}

fn start_within(random: &mut Random, limits: &[u8], loaded: &[u8]) -> Vec<u8> {
    let tones = limits.len();
    match random.below(8) {
        0 => vec![0; tones],
        1 => limits.to_vec(),
        2 => loaded.to_vec(),
        3 => {
            // The loaded table with a few tones changed.
            let mut start = loaded.to_vec();
            for _ in 0..random.pick(&[1, 2, 8]) {
                let tone = random.below(tones);
                start[tone] = random.between(0, u64::from(limits[tone])) as u8;
            }
            start
        }
        4 => {
            // Full from some tone on: the exchanges go to lower tones.
            let from = random.below(tones);
            let bits = |tone| if tone < from { 0 } else { limits[tone] };
            (0..tones).map(bits).collect()
        }
        5 => limits.iter().map(|&limit| random.between(0, u64::from(limit.min(2))) as u8).collect(),
        _ => limits.iter().map(|&limit| random.between(0, u64::from(limit)) as u8).collect(),
    }
}

#[cfg(test)]
mod tests {
    use super::*;
    use crate::paper::line::{Command, LARGEST_SHEET, TWIN};
    use crate::paper::Refusal;
    use crate::sheets::named;
    use std::collections::BTreeMap;

    type Sorts = Vec<(&'static str, bool)>;

    /// The commands that describe a tone.
    const DESCRIBE: [u8; 4] = [4, 5, 9, 10];

    /// The commands of a sheet as far as they are whole, and the place after them.
    fn whole(sheet: &[u8]) -> (Vec<&[u8]>, usize) {
        let (mut commands, mut at) = (Vec::new(), 0);
        while let Some(command) = sheet.get(at).and_then(|byte| Command::of(*byte)) {
            let Some(bytes) = sheet.get(at..at + command.length()) else { break };
            commands.push(bytes);
            at += bytes.len();
        }
        (commands, at)
    }

    fn is_twin(command: &[u8]) -> bool {
        Command::of(command[0]).is_some_and(|command| command.is_twin)
    }

    /// Whether one of some commands of other width names the same tone, before a command.
    fn follows(before: &[&[u8]], command: &[u8], shorts: &[u8]) -> bool {
        let width = if is_twin(command) { 0 } else { TWIN };
        let is_other = |other: &[u8]| {
            shorts.iter().any(|short| other[0] == short + width) && named(other) == named(command)
        };
        before.iter().any(|other| is_other(other))
    }

    /// Whether a loading for most bits ends between equal steps of tones 255 and 256.
    fn ends_at_256(line: &Line) -> bool {
        let mut run = Running::nothing(line);
        run.add_all();
        match (run.latest_held(), run.earliest_free()) {
            (Some((held, 255)), Some((free, 256))) => held == free,
            _ => false,
        }
    }

    /// What is to be seen of a sheet that is accepted.
    fn sorts_of_sheet(sheet: &[u8], line: &Line) -> Sorts {
        let commands = whole(sheet).0;
        let has = |byte| commands.iter().any(|command| command[0] == byte);
        let low = |twin| {
            let of = |command: &&&[u8]| is_twin(command) == twin;
            commands.iter().filter(of).any(|command| named(command).is_some_and(|tone| tone < 256))
        };
        let later = |byte: u8| {
            let other = |place| follows(&commands[..place], commands[place], &DESCRIBE);
            (0..commands.len()).any(|place| commands[place][0] == byte && other(place))
        };
        let word = |command: &[u8], from: u8| command[0] == 6 && command[1] >= from;
        let silences =
            |from| commands.iter().any(|command| word(command, from) && command[2..] != [0; 4]);
        let beyond = |command: &&[u8]| word(command, line.tones.div_ceil(32) as u8);
        vec![
            ("14", has(0x14)),
            ("15", has(0x15)),
            ("19", has(0x19)),
            ("1A", has(0x1a)),
            ("1B", has(0x1b)),
            ("1C", has(0x1c)),
            ("a twin below 256", low(true)),
            ("both below 256", low(true) && low(false)),
            ("0B of a tone by a twin", later(0x0b)),
            ("1B of a tone by a short command", later(0x1b)),
            ("0C of a tone by a twin", later(0x0c)),
            ("1C of a tone by a short command", later(0x1c)),
            ("a tone from 256 on", line.described.iter().skip(256).any(Option::is_some)),
            ("tone 1,023", line.described.get(1023).is_some_and(Option::is_some)),
            ("a silenced tone from 256 on", silences(8)),
            ("a silenced tone of word 31", silences(31)),
            ("an empty word beyond the line", commands.iter().any(beyond)),
            ("1,024 tones", line.tones == TONES && line.count_described() == 1024),
            ("over 4,096 bytes", sheet.len() > 4_096),
            ("32,768 bytes", sheet.len() == LARGEST_SHEET),
            ("an end at 256", line.tones > 256 && ends_at_256(line)),
        ]
    }

    /// What is to be seen of a sheet that is refused.
    fn sorts_of_refusal(sheet: &[u8], Refusal { number, place }: Refusal) -> Sorts {
        let (commands, end) = whole(&sheet[..place.min(sheet.len())]);
        let rest = &sheet[end..];
        let twin = number > 1 && number != 7 && !rest.is_empty() && is_twin(rest);
        let again =
            |twin| number == 6 && is_twin(rest) == twin && follows(&commands, rest, &DESCRIBE);
        let second =
            |byte: u8| number == 14 && rest[0] == byte && follows(&commands, rest, &[byte % TWIN]);
        vec![
            ("1 at 32,769 bytes", number == 1 && sheet.len() == LARGEST_SHEET + 1),
            ("2 between the bytes of a tone", number == 2 && twin && rest.len() == 2),
            ("4 by 1,025 tones", (number, place) == (4, 1) && sheet[1..3] == [4, 1]),
            ("4 by word 32", number == 4 && rest[..2] == [6, 32]),
            ("4 in a twin", number == 4 && twin),
            ("5 in a twin", number == 5 && twin),
            ("5 in 1B", number == 5 && rest[0] == 0x1b),
            ("5 in 1C", number == 5 && rest[0] == 0x1c),
            ("5 by a word from 8 on", number == 5 && rest[0] == 6 && rest[1] >= 8),
            ("6 in a twin", number == 6 && twin),
            ("6 in a twin after a short command", again(true)),
            ("6 in a short command after a twin", again(false)),
            ("12 in a twin", number == 12 && twin),
            ("13 in a twin", number == 13 && twin),
            ("14 in a twin", number == 14 && twin),
            ("14 in 1B after 0B", second(0x1b)),
            ("14 in 0B after 1B", second(0x0b)),
            ("14 in 1C after 0C", second(0x1c)),
            ("14 in 0C after 1C", second(0x0c)),
            ("15 in a twin", number == 15 && twin),
        ]
    }

    /// Twins, tones from 256 on, words from 8 on and long sheets are met in every way that is
    /// accepted or refused.
    #[test]
    fn thousand_tones() {
        let mut counts = BTreeMap::new();
        for index in 0..30_000 {
            let sheet = sheet(&mut Random::new(1, index), index);
            let sorts = match read_bytes(&sheet) {
                Ok(line) => sorts_of_sheet(&sheet, &line),
                Err(refusal) => sorts_of_refusal(&sheet, refusal),
            };
            for (sort, is) in sorts {
                *counts.entry(sort).or_insert(0) += u32::from(is);
            }
        }
        let all = counts.len() == 41 && counts.values().all(|&count| count > 5);
        assert!(all, "sheets: {counts:#?}");
    }

    /// Where 16 refuses a sheet, there are inputs of which no other refusal could be given,
    /// and ones for each of 8 to 11.
    #[test]
    fn rests_over_the_budget_and_other_faults() {
        let mut counts = [0; 5];
        for index in 0..20_000 {
            let input = input(1, index);
            let Ok(line) = read_bytes(&input.sheet) else { continue };
            if line.sum_of_rests() <= line.budget {
                continue;
            }
            let run = Running::nothing(&line);
            let above = |(bits, limit): (&u8, &u8)| bits > limit;
            let short = input.table.len() < BYTES_A_TONE * line.tones
                || input.answer.len() < ANSWER_BYTES
                || input.tidy.len() < tidy_length(&line)
                || input.limits.len() < BYTES_A_LIMIT * line.tones;
            let faults = [
                short,
                input.start.len() != line.tones,
                input.start.len() == line.tones && input.start.iter().zip(&run.limit).any(above),
                input.target > 0,
            ];
            counts[0] += u32::from(faults == [false; 4]);
            for (count, fault) in counts[1..].iter_mut().zip(faults) {
                *count += u32::from(fault);
            }
        }
        assert!(counts.iter().all(|&count| count > 5), "{counts:?}");
    }
}
