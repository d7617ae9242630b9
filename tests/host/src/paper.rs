//! An independent loader, written from document 01 and document 02's requests W1, W3 and W5
//! to W9: the six calls as the C host makes them, the limits, many budgets and the guarded
//! loading by its conventions, and what the bench program prints. It keeps each tone's next
//! free and last held step; each move scans all of them for the earliest free and the latest
//! held.

pub mod budgets;
pub mod gap;
pub mod guarded;
pub mod line;
#[cfg(test)]
mod ranges;
pub mod reading;
pub mod run;
#[cfg(test)]
mod sample;
#[cfg(test)]
mod twins;

use gap::Gap;
use line::{read, Command, Given, Line, Tone};
use reading::Reading;
use run::Running;

pub const BYTES_A_TONE: usize = 9;
pub const BYTES_A_LIMIT: usize = 2;
pub const ANSWER_BYTES: usize = 24;

/// Why a call was turned down, and where.
#[derive(Clone, Copy, Debug, PartialEq, Eq)]
pub struct Refusal {
    pub number: u32,
    pub place: usize,
}

fn refuse<T>(number: u32, place: usize) -> Result<T, Refusal> {
    Err(Refusal { number, place })
}

/// The returned number: refusal number × 2^32 + place.
fn returned(outcome: Result<(), Refusal>) -> u64 {
    match outcome {
        Ok(()) => 0,
        Err(refusal) => u64::from(refusal.number) << 32 | refusal.place as u64,
    }
}

/// Refusal 8: a table, a tidy sheet, limits or totals need `bytes`, the answers need 24.
fn room(destination: &[u8], bytes: usize, answer: &[u8]) -> Result<(), Refusal> {
    if destination.len() < bytes || answer.len() < ANSWER_BYTES {
        return refuse(8, 0);
    }
    Ok(())
}

fn write_answers(answer: &mut [u8], answers: &[u64]) {
    for (place, value) in answer.chunks_exact_mut(8).zip(answers) {
        place.copy_from_slice(&value.to_be_bytes());
    }
}

pub fn check(sheet: &[u8], answer: &mut [u8]) -> u64 {
    returned((|| {
        let line = read(sheet)?;
        room(&[], 0, answer)?;
        let answers = [line.tones as u64, line.count_described(), line.count_silenced()];
        write_answers(answer, &answers);
        Ok(())
    })())
}

/// Both loadings: with no target, for most bits.
fn load(
    sheet: &[u8],
    target: Option<u32>,
    table: &mut [u8],
    answer: &mut [u8],
) -> Result<(), Refusal> {
    let target = target.map(u64::from);
    let line = read(sheet)?;
    room(table, BYTES_A_TONE * line.tones, answer)?;
    let mut run = Running::nothing(&line);
    while Some(run.total_bits) != target && run.add() {}
    if target.is_some_and(|target| target != run.total_bits) {
        return refuse(11, 0);
    }
    run.write(table);
    write_answers(answer, &[run.total_bits, run.total_power]);
    Ok(())
}

pub fn load_most(sheet: &[u8], table: &mut [u8], answer: &mut [u8]) -> u64 {
    returned(load(sheet, None, table, answer))
}

pub fn load_target(sheet: &[u8], target: u32, table: &mut [u8], answer: &mut [u8]) -> u64 {
    returned(load(sheet, Some(target), table, answer))
}

/// The re-fit, of at most so many moves.
fn refit_moves(
    sheet: &[u8],
    start: &[u8],
    most: u64,
    table: &mut [u8],
    answer: &mut [u8],
) -> Result<(), Refusal> {
    let line = read(sheet)?;
    room(table, BYTES_A_TONE * line.tones, answer)?;
    let mut run = Running::from_start(&line, start)?;
    let mut moves = 0;
    while moves < most && run.refit_step() {
        moves += 1;
    }
    run.write(table);
    write_answers(answer, &[run.total_bits, run.total_power, moves]);
    Ok(())
}

pub fn refit(sheet: &[u8], start: &[u8], table: &mut [u8], answer: &mut [u8]) -> u64 {
    returned(refit_moves(sheet, start, u64::MAX, table, answer))
}

pub fn refit_step(sheet: &[u8], start: &[u8], table: &mut [u8], answer: &mut [u8]) -> u64 {
    returned(refit_moves(sheet, start, 1, table, answer))
}

/// The tidy sheet as it is written from left to right.
struct Tidy<'a> {
    bytes: &'a mut [u8],
    length: usize,
}

impl Tidy<'_> {
    fn put(&mut self, bytes: &[u8]) {
        self.bytes[self.length..self.length + bytes.len()].copy_from_slice(bytes);
        self.length += bytes.len();
    }

    fn put_gap(&mut self, gap: Gap) {
        match gap {
            Gap::Whole(gap) => {
                self.put(&[2]);
                self.put(&gap.to_be_bytes());
            }
            Gap::Tenths(tenths) => self.put(&[8, tenths]),
        }
    }

    /// The byte and the tone of the shortest command.
    fn put_command(&mut self, short: u8, tone: usize) {
        let command = Command::shortest(short, tone);
        let bytes = (tone as u16).to_be_bytes();
        self.put(&[command.byte()]);
        self.put(&bytes[bytes.len() - command.tone_bytes()..]);
    }

    fn put_tone(&mut self, number: usize, tone: &Tone) {
        self.put_command(tone.short(), number);
        match tone.given {
            Given::Whole { noise, gain } => {
                self.put(&noise.to_be_bytes());
                self.put(&gain.to_be_bytes());
            }
            Given::Read(Reading::NoiseAndGain(noise, gain)) => {
                self.put(&noise.to_be_bytes());
                self.put(&gain.to_be_bytes());
            }
            Given::Read(Reading::Ratio(ratio)) => self.put(&ratio.to_be_bytes()),
        }
        self.put(&[tone.cap]);
        self.put(&tone.mask.to_be_bytes());
    }

    fn put_rest(&mut self, number: usize, rest: u32) {
        if rest != 0 {
            self.put_command(11, number);
            self.put(&rest.to_be_bytes());
        }
    }

    fn put_high_noise(&mut self, number: usize, high: Option<u16>) {
        if let Some(high) = high {
            self.put_command(12, number);
            self.put(&high.to_be_bytes());
        }
    }

    fn put_line(&mut self, line: &Line) {
        self.put(&[1]);
        self.put(&(line.tones as u16).to_be_bytes());
        self.put_gap(line.gap);
        self.put(&[3]);
        self.put(&line.budget.to_be_bytes());
        for (number, tone) in line.described.iter().enumerate() {
            if let Some(tone) = tone {
                self.put_tone(number, tone);
                self.put_rest(number, line.rests[number]);
                self.put_high_noise(number, line.high_noises[number]);
            }
        }
        for (word, map) in line.silenced.iter().enumerate() {
            if *map != 0 {
                self.put(&[6, word as u8]);
                self.put(&map.to_be_bytes());
            }
        }
        self.put(&[7]);
    }
}

pub fn tidy_length(line: &Line) -> usize {
    let words = line.silenced.iter().filter(|map| **map != 0).count();
    let mut length = 3 + line.gap.length() + 9 + 6 * words + 1;
    for (number, tone) in line.described.iter().enumerate() {
        let Some(tone) = tone else { continue };
        length += Command::shortest(tone.short(), number).length();
        if line.rests[number] != 0 {
            length += Command::shortest(11, number).length();
        }
        if line.high_noises[number].is_some() {
            length += Command::shortest(12, number).length();
        }
    }
    length
}

pub fn tidy(sheet: &[u8], tidy: &mut [u8], answer: &mut [u8]) -> u64 {
    returned((|| {
        let line = read(sheet)?;
        let length = tidy_length(&line);
        room(tidy, length, answer)?;
        Tidy { bytes: tidy, length: 0 }.put_line(&line);
        write_answers(answer, &[length as u64]);
        Ok(())
    })())
}

/// The limit of each tone, then the number of what set it. There are no answers.
pub fn limits(sheet: &[u8], limits: &mut [u8], answer: &mut [u8]) -> u64 {
    returned((|| {
        let line = read(sheet)?;
        room(limits, BYTES_A_LIMIT * line.tones, answer)?;
        for (tone, place) in limits.chunks_exact_mut(BYTES_A_LIMIT).take(line.tones).enumerate() {
            let (limit, set_by) = line.limit(tone);
            place.copy_from_slice(&[limit, set_by as u8]);
        }
        Ok(())
    })())
}

/// What the bench program prints for a sheet.
pub fn printed(sheet: &[u8]) -> String {
    let line = match read(sheet) {
        Ok(line) => line,
        Err(refusal) => return format!("refused {} {}\n", refusal.number, refusal.place),
    };
    let mut run = Running::nothing(&line);
    while run.add() {}
    let mut text = String::new();
    for tone in 0..line.tones {
        let (_, set_by) = line.limit(tone);
        text += &format!("{tone} {} {} {}\n", run.bits[tone], run.power(tone), set_by.word());
    }
    text + &format!("total {} {}\n", run.total_bits, run.total_power)
}
