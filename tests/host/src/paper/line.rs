//! A tone's cost, power and limit, and the reading of a sheet.

use super::gap::{Gap, MOST_TENTHS};
use super::reading::{is_accepted, Reading};
use super::{refuse, Refusal};

pub const TONES: usize = 1024;
/// Of 32 tones each.
pub const WORDS: usize = TONES / 32;
pub const LARGEST_SHEET: usize = 32_768;
/// Masks and budgets end here.
pub const LARGEST_POWER: u64 = 1 << 47;
/// A twin's byte is so much higher than its short command's.
pub const TWIN: u8 = 0x10;

/// A command of a sheet.
#[derive(Clone, Copy, Debug, PartialEq, Eq)]
pub struct Command {
    /// Its byte or, of a twin, that of its short command.
    pub short: u8,
    pub is_twin: bool,
}

impl Command {
    /// The bytes of each command that is no twin, by its byte.
    const WIDTHS: [usize; 13] = [0, 3, 3, 9, 15, 15, 6, 1, 2, 19, 15, 6, 4];

    /// What a byte stands for: "Each command with a tone byte gets a twin".
    pub fn of(byte: u8) -> Option<Command> {
        let is_twin = byte >= TWIN;
        let command = Command { short: byte % TWIN, is_twin };
        let is_known = match is_twin {
            true => byte < 2 * TWIN && command.has_tone(),
            false => (1..13).contains(&byte),
        };
        is_known.then_some(command)
    }

    /// The shortest for a tone: "Tidying uses the short command for tones up to 255."
    pub fn shortest(short: u8, tone: usize) -> Command {
        Command { short, is_twin: tone > 255 }
    }

    pub fn byte(self) -> u8 {
        self.short + if self.is_twin { TWIN } else { 0 }
    }

    pub fn describes_a_tone(self) -> bool {
        matches!(self.short, 4 | 5 | 9 | 10)
    }

    /// Whether its first operand is a tone.
    pub fn has_tone(self) -> bool {
        self.describes_a_tone() || matches!(self.short, 11 | 12)
    }

    /// The bytes of its tone.
    pub fn tone_bytes(self) -> usize {
        1 + usize::from(self.is_twin)
    }

    /// Its bytes in all: a twin has "its other operands alike".
    pub fn length(self) -> usize {
        Command::WIDTHS[usize::from(self.short)] + usize::from(self.is_twin)
    }
}

#[derive(Clone, Copy, Debug, PartialEq, Eq)]
pub enum Kind {
    Pair,
    Single,
}

/// What a tone's command says of its noise and gain. Which command it was belongs to
/// the line.
#[derive(Clone, Copy, Debug, PartialEq, Eq)]
pub enum Given {
    /// By 04 or 05.
    Whole { noise: u16, gain: u16 },
    /// By 09 or 0A: a pair tone.
    Read(Reading),
}

/// A described tone.
#[derive(Clone, Copy, Debug, PartialEq, Eq)]
pub struct Tone {
    pub kind: Kind,
    pub given: Given,
    pub cap: u8,
    pub mask: u64,
}

/// What a sheet says.
#[derive(Clone, Debug, PartialEq, Eq)]
pub struct Line {
    pub tones: usize,
    pub gap: Gap,
    pub budget: u64,
    /// Of each tone.
    pub described: Vec<Option<Tone>>,
    /// Of each tone, by 0B, and 0 where none was given: both are the same line.
    pub rests: Vec<u32>,
    /// Of each tone, by 0C, where it is above the noise: one as large and none are the same
    /// line.
    pub high_noises: Vec<Option<u16>>,
    pub silenced: [u32; WORDS],
}

// ---- Cost, power and limit of a tone ----

/// The smallest whole number not below gap × noise / (256 × gain).
pub fn cost(gap: u64, noise: u16, gain: u16) -> u64 {
    (gap * u64::from(noise)).div_ceil(256 * u64::from(gain))
}

impl Tone {
    /// The cost at a gap; a reading that has none there was refused with 13.
    pub fn cost(&self, gap: u64) -> u64 {
        match self.given {
            Given::Whole { noise, gain } => cost(gap, noise, gain),
            Given::Read(reading) => reading.cost(gap).expect("it was accepted"),
        }
    }

    /// The byte of its command, or of its command's short one: which of the two it was is no
    /// part of the line.
    pub fn short(&self) -> u8 {
        match self.given {
            Given::Whole { .. } if self.kind == Kind::Pair => 4,
            Given::Whole { .. } => 5,
            Given::Read(Reading::NoiseAndGain(..)) => 9,
            Given::Read(Reading::Ratio(_)) => 10,
        }
    }

    /// 15: "the rest is not below the cost or is above the mask".
    pub fn takes_rest(&self, gap: u64, rest: u32) -> bool {
        u64::from(rest) < self.cost(gap) && u64::from(rest) <= self.mask
    }
}

/// The power of some bits, without the rest: that of no bits is 0.
pub fn power(kind: Kind, cost: u64, bits: u8) -> u64 {
    match kind {
        Kind::Pair => cost * ((1 << bits) - 1),
        Kind::Single => cost * ((1 << (2 * bits)) - 1),
    }
}

/// The largest number of bits within cap and mask.
pub fn limit(tone: &Tone, cost: u64) -> u8 {
    let mut bits = 0;
    while bits < tone.cap && power(tone.kind, cost, bits + 1) <= tone.mask {
        bits += 1;
    }
    bits
}

/// What set a tone's limit; each with its number in the limits that are written.
#[derive(Clone, Copy, Debug, PartialEq, Eq)]
pub enum SetBy {
    Silent = 0,
    Cap = 1,
    Mask = 2,
}

impl SetBy {
    pub fn word(self) -> &'static str {
        match self {
            SetBy::Silent => "silent",
            SetBy::Cap => "cap",
            SetBy::Mask => "mask",
        }
    }
}

/// On a described, unsilenced tone "it is mask exactly if one bit more would still
/// be within the cap but over the mask, and cap otherwise".
pub fn set_by(tone: &Tone, cost: u64, limit: u8) -> SetBy {
    let more = limit + 1;
    match more <= tone.cap && power(tone.kind, cost, more) > tone.mask {
        true => SetBy::Mask,
        false => SetBy::Cap,
    }
}

// ---- Reading a sheet ----

fn number(sheet: &[u8], at: usize, width: usize) -> u64 {
    let mut number = 0;
    for byte in &sheet[at..at + width] {
        number = number << 8 | u64::from(*byte);
    }
    number
}

/// The operand at a place, if it is within its range.
fn operand(sheet: &[u8], at: usize, width: usize, low: u64, high: u64) -> Result<u64, Refusal> {
    let operand = number(sheet, at, width);
    if operand < low || operand > high {
        return refuse(4, at);
    }
    Ok(operand)
}

/// The command at a place, if it is allowed, as its twin is with it, and its operands are
/// there.
fn command(sheet: &[u8], at: usize, allowed: impl Fn(u8) -> bool) -> Result<Command, Refusal> {
    if at >= sheet.len() {
        return refuse(2, sheet.len());
    }
    match Command::of(sheet[at]) {
        Some(command) if allowed(command.short) => match sheet.len() - at < command.length() {
            true => refuse(2, sheet.len()),
            false => Ok(command),
        },
        _ => refuse(3, at),
    }
}

/// Command 02, or 08 in its place.
fn read_gap(sheet: &[u8], at: usize) -> Result<Gap, Refusal> {
    let most_tenths = MOST_TENTHS.into();
    match command(sheet, at, |byte| byte == 2 || byte == 8)?.short {
        2 => Ok(Gap::Whole(operand(sheet, at + 1, 2, 256, 65_535)? as u16)),
        _ => Ok(Gap::Tenths(operand(sheet, at + 1, 1, 0, most_tenths)? as u8)),
    }
}

/// The bits of the float at a place, if it is finite and above zero.
fn float(sheet: &[u8], at: usize) -> Result<u32, Refusal> {
    let bits = number(sheet, at, 4) as u32;
    if !is_accepted(bits) {
        return refuse(12, at);
    }
    Ok(bits)
}

/// What 09 or 0A says from its first float on, with refusal 13 straight after the last.
fn read_reading(gap: Gap, sheet: &[u8], at: usize, short: u8) -> Result<Reading, Refusal> {
    let reading = match short {
        9 => Reading::NoiseAndGain(float(sheet, at)?, float(sheet, at + 4)?),
        _ => Reading::Ratio(float(sheet, at)?),
    };
    match reading.cost(gap.value()) {
        Some(_) => Ok(reading),
        None => refuse(13, at),
    }
}

/// The tone of a command, if it is on the line, and the place of the operand after it.
fn read_number(
    line: &Line,
    sheet: &[u8],
    at: usize,
    command: Command,
) -> Result<(usize, usize), Refusal> {
    let tone = number(sheet, at + 1, command.tone_bytes()) as usize;
    if tone >= line.tones {
        return refuse(5, at + 1);
    }
    Ok((tone, at + 1 + command.tone_bytes()))
}

/// Command 04, 05, 09 or 0A, or a twin: cap and mask are its last nine bytes.
fn read_tone(line: &mut Line, sheet: &[u8], at: usize, command: Command) -> Result<(), Refusal> {
    let (number, next) = read_number(line, sheet, at, command)?;
    if line.described[number].is_some() {
        return refuse(6, at + 1);
    }
    let given = match command.short {
        4 | 5 => Given::Whole {
            noise: operand(sheet, next, 2, 1, 65_535)? as u16,
            gain: operand(sheet, next + 2, 2, 1, 65_535)? as u16,
        },
        short => Given::Read(read_reading(line.gap, sheet, next, short)?),
    };
    let (kind, most) = if command.short == 5 { (Kind::Single, 7) } else { (Kind::Pair, 15) };
    let end = at + command.length();
    let cap = operand(sheet, end - 9, 1, 0, most)? as u8;
    let mask = operand(sheet, end - 8, 8, 0, LARGEST_POWER)?;
    line.described[number] = Some(Tone { kind, given, cap, mask });
    Ok(())
}

fn read_silence(line: &mut Line, sheet: &[u8], at: usize) -> Result<(), Refusal> {
    let word = operand(sheet, at + 1, 1, 0, WORDS as u64 - 1)? as usize;
    let map = number(sheet, at + 2, 4);
    let on_line = line.tones.saturating_sub(32 * word).min(32);
    if map >> on_line != 0 {
        return refuse(5, at + 2);
    }
    line.silenced[word] |= map as u32;
    Ok(())
}

/// Which tones have had a 0B, even of rest 0, and which a 0C, even of their own noise: that
/// is no part of the line.
struct Had {
    rest: Vec<bool>,
    high_noise: Vec<bool>,
}

/// Command 0B or its twin.
fn read_rest(
    line: &mut Line,
    had: &mut Had,
    sheet: &[u8],
    at: usize,
    command: Command,
) -> Result<(), Refusal> {
    let (place, next) = read_number(line, sheet, at, command)?;
    let rest = number(sheet, next, 4) as u32;
    match &line.described[place] {
        Some(tone) if !had.rest[place] => {
            if !tone.takes_rest(line.gap.value(), rest) {
                return refuse(15, next);
            }
            line.rests[place] = rest;
            had.rest[place] = true;
            Ok(())
        }
        _ => refuse(14, at + 1),
    }
}

/// Command 0C or its twin. "A tone undescribed or given twice is 14, as in W6; then a tone of
/// another command is 4 at the tone; then a high noise below the noise is 4 at that operand."
fn read_high_noise(
    line: &mut Line,
    had: &mut Had,
    sheet: &[u8],
    at: usize,
    command: Command,
) -> Result<(), Refusal> {
    let (place, next) = read_number(line, sheet, at, command)?;
    let given = match &line.described[place] {
        Some(tone) if !had.high_noise[place] => tone.given,
        _ => return refuse(14, at + 1),
    };
    let Given::Whole { noise, .. } = given else { return refuse(4, at + 1) };
    let high = operand(sheet, next, 2, noise.into(), 65_535)? as u16;
    line.high_noises[place] = (high > noise).then_some(high);
    had.high_noise[place] = true;
    Ok(())
}

/// What the bytes of a sheet say: refusals 1 to 7 and 12 to 15.
pub fn read_bytes(sheet: &[u8]) -> Result<Line, Refusal> {
    if sheet.len() > LARGEST_SHEET {
        return refuse(1, 0);
    }
    command(sheet, 0, |byte| byte == 1)?;
    let tones = operand(sheet, 1, 2, 1, TONES as u64)? as usize;
    let gap = read_gap(sheet, 3)?;
    let mut at = 3 + gap.length();
    command(sheet, at, |byte| byte == 3)?;
    let budget = operand(sheet, at + 1, 8, 0, LARGEST_POWER)?;
    let mut line = Line::bare(tones, gap, budget);
    let mut had = Had { rest: vec![false; tones], high_noise: vec![false; tones] };
    at += 9;
    loop {
        let command = command(sheet, at, |byte| matches!(byte, 4..=7 | 9..=12))?;
        match command.short {
            6 => read_silence(&mut line, sheet, at)?,
            11 => read_rest(&mut line, &mut had, sheet, at, command)?,
            12 => read_high_noise(&mut line, &mut had, sheet, at, command)?,
            7 if at + 1 < sheet.len() => return refuse(7, at + 1),
            7 => return Ok(line),
            _ => read_tone(&mut line, sheet, at, command)?,
        }
        at += command.length();
    }
}

/// The line of a sheet: refusal 16 after those of its bytes.
pub fn read(sheet: &[u8]) -> Result<Line, Refusal> {
    let mut line = read_bytes(sheet);
    if line.as_ref().is_ok_and(|line| line.sum_of_rests() > line.budget) {
        line = refuse(16, 0);
    }
    line
}

impl Line {
    /// With nothing described.
    fn bare(tones: usize, gap: Gap, budget: u64) -> Line {
        Line {
            tones,
            gap,
            budget,
            described: vec![None; tones],
            rests: vec![0; tones],
            high_noises: vec![None; tones],
            silenced: [0; WORDS],
        }
    }

    /// The line with every high noise in the place of its tone's noise.
    pub fn at_high_noises(&self) -> Line {
        let mut line = self.clone();
        for (tone, high) in line.described.iter_mut().zip(&mut line.high_noises) {
            let Some(Tone { given: Given::Whole { noise, .. }, .. }) = tone else { continue };
            *noise = high.take().unwrap_or(*noise);
        }
        line
    }

    pub fn is_silenced(&self, tone: usize) -> bool {
        self.silenced[tone / 32] >> (tone % 32) & 1 == 1
    }

    /// What a tone sends with no bits: "A silenced tone sends nothing."
    pub fn rest(&self, number: usize) -> u64 {
        match self.is_silenced(number) {
            true => 0,
            false => self.rests[number].into(),
        }
    }

    /// What all tones send with no bits.
    pub fn sum_of_rests(&self) -> u64 {
        (0..self.tones).map(|tone| self.rest(tone)).sum()
    }

    /// A tone's limit and what set it: "every other tone is silent".
    pub fn limit(&self, number: usize) -> (u8, SetBy) {
        match &self.described[number] {
            Some(tone) if !self.is_silenced(number) => {
                let cost = tone.cost(self.gap.value());
                let limit = limit(tone, cost);
                (limit, set_by(tone, cost, limit))
            }
            _ => (0, SetBy::Silent),
        }
    }

    pub fn count_described(&self) -> u64 {
        self.described.iter().flatten().count() as u64
    }

    pub fn count_silenced(&self) -> u64 {
        self.silenced.iter().map(|map| u64::from(map.count_ones())).sum()
    }
}
