//! Valid line sheets from a seed.

use crate::floats;
use crate::paper::gap::{Gap, MOST_TENTHS};
use crate::paper::line::{power, read, Command, Given, Kind, Tone};
use crate::paper::line::{LARGEST_POWER, LARGEST_SHEET, TONES, TWIN, WORDS};
use crate::paper::reading::{Reading, LARGEST_COST};
use crate::paper::run::Running;
use crate::random::Random;
use crate::totals;

/// A sheet as its commands, so that damage can move them about.
pub type Commands = Vec<Vec<u8>>;

/// The sample sheet of document 01, at budget 39.
pub const SAMPLE: [u8; 61] = [
    1, 0, 3, 2, 1, 0, 3, 0, 0, 0, 0, 0, 0, 0, 39, //
    4, 0, 0, 3, 0, 1, 15, 0, 0, 0, 0, 0, 0, 0, 100, //
    4, 1, 0, 5, 0, 1, 2, 0, 0, 0, 0, 0, 0, 0, 100, //
    5, 2, 0, 1, 0, 1, 7, 0, 0, 0, 0, 0, 0, 0, 100, 7,
];

/// A sheet with its gap in tenths of a decibel. Noise 256 and gain 1 make the gap
/// the cost of tone 0, whose first step is the earliest at any number of tenths, and
/// fits: so its power shows the gap.
pub const IN_TENTHS: [u8; 60] = [
    1, 0, 3, 8, 100, 3, 0, 0, 0, 0, 0, 1, 0x11, 0x70, //
    4, 0, 1, 0, 0, 1, 15, 0, 0, 0, 0, 0, 1, 0, 0, //
    4, 1, 1, 44, 0, 1, 2, 0, 0, 0, 0, 0, 1, 0, 0, //
    5, 2, 0, 100, 0, 1, 7, 0, 0, 0, 0, 0, 1, 0, 0, 7,
];

/// A sheet with readings, of noise 10,000,000.0 and gain 3.0, and of ratio 1,234,567.0:
/// their last bits show in the cost, and the budget leaves each tone some bits, whose
/// power shows it.
pub const READINGS: [u8; 65] = [
    1, 0, 3, 2, 1, 44, 3, 0, 0, 0, 0, 0x3b, 0x9a, 0xca, 0, //
    9, 0, 0x4b, 0x18, 0x96, 0x80, 0x40, 0x40, 0, 0, 9, 0, 0, 1, 0, 0, 0, 0, 0, //
    10, 1, 0x49, 0x96, 0xb4, 0x38, 15, 0, 0, 0, 0, 0x20, 0, 0, 0, //
    5, 2, 0xff, 0xff, 0, 1, 7, 0, 0, 1, 0, 0, 0, 0, 0, 7,
];

/// A sheet with rests, of which that of the ratio's tone takes three bytes, and with a
/// silence that names no tone. Its tones, and then their rests, come in falling order.
/// The budget carries two bits on tone 1 and three on tone 2.
pub const RESTS: [u8; 64] = [
    1, 0, 3, 2, 1, 44, 3, 0, 0, 0, 0, 0, 4, 0, 0, //
    5, 2, 0, 9, 0, 1, 7, 0, 0, 0, 0, 0, 0, 3, 0, //
    10, 1, 0x47, 0x7f, 0xff, 0, 15, 0, 0, 0, 0, 0, 0x10, 0, 0, //
    11, 2, 0, 0, 0, 10, 11, 1, 0, 1, 2, 3, 6, 0, 0, 0, 0, 0, 7,
];

/// A sheet of 1,024 tones with twins, of tones below 256 too, with rests by either command of
/// 0B, and with a silence of the last word. The first steps of tones 255, 256 and 1,023 are
/// 3, and the budget carries two of them.
pub const TWINS: [u8; 103] = [
    1, 4, 0, 2, 1, 0, 3, 0, 0, 0, 0, 0, 0, 0, 12, //
    0x15, 3, 255, 0, 1, 0, 1, 7, 0, 0, 0, 0, 0, 0, 0, 100, //
    0x14, 1, 0, 0, 5, 0, 1, 2, 0, 0, 0, 0, 0, 0, 0, 100, //
    0x1a, 0, 255, 0x40, 0xa0, 0, 0, 15, 0, 0, 0, 0, 0, 0, 0, 100, //
    0x1b, 1, 0, 0, 0, 0, 2, 11, 255, 0, 0, 0, 2, //
    6, 31, 0x40, 0, 0, 0, //
    0x19, 3, 254, 0x40, 0xc0, 0, 0, 0x40, 0, 0, 0, 9, 0, 0, 0, 0, 0, 0, 0, 100, 7,
];

/// A sheet with high noises by either command of 0C, one of them before its tone's rest. The
/// budget carries two bits on tone 0 at either noise, one on tone 1, and on tone 2 two, but
/// one where the noises are high.
pub const RANGES: [u8; 77] = [
    1, 0, 3, 2, 1, 0, 3, 0, 0, 0, 0, 0, 0, 0, 38, //
    4, 0, 0, 3, 0, 1, 15, 0, 0, 0, 0, 0, 0, 0, 100, 12, 0, 0, 5, //
    0x15, 0, 1, 0, 2, 0, 1, 7, 0, 0, 0, 0, 0, 0, 0, 100, //
    10, 2, 0x40, 0xa0, 0, 0, 15, 0, 0, 0, 0, 0, 0, 0, 100, //
    0x1c, 0, 1, 0, 3, 11, 1, 0, 0, 0, 1, 7,
];

/// How the tones of one line compare.
#[derive(Clone, Copy)]
enum Likeness {
    Equal,
    /// Small costs, whose steps meet often.
    Ties,
    /// Noise rises and gain falls from tone to tone, as on a cable.
    Cable,
    Edges,
    Any,
}

/// What the tones of one line have in common.
struct Plan {
    tones: usize,
    gap: Gap,
    likeness: Likeness,
    /// Noise and gain, where they are the same for all.
    equal: (u16, u16),
    /// How many tones in four are single, if they are not readings.
    singles: usize,
    /// How many tones in four are readings, and how many of those in four are ratios.
    readings: usize,
    ratios: usize,
    tight_caps: bool,
    tight_masks: bool,
    /// How many tones in four have a rest, and the size that rests give to first steps,
    /// where they can.
    rests: usize,
    first_step: u64,
    /// How many tones in four have a high noise, if they are not readings.
    ranges: usize,
    /// How many commands in four that name a tone below 256 are twins.
    twins: usize,
}

/// A tone as a command names it.
#[derive(Clone, Copy)]
pub struct Name {
    number: usize,
    is_twin: bool,
}

/// By the shortest command.
impl From<usize> for Name {
    fn from(number: usize) -> Name {
        Name { number, is_twin: number > 255 }
    }
}

impl Name {
    /// By a twin, if it has to be, and else in so many of four.
    fn new(random: &mut Random, number: usize, twins: usize) -> Name {
        Name { number, is_twin: number > 255 || random.below(4) < twins }
    }

    /// By any command that can.
    pub fn any(random: &mut Random, number: usize) -> Name {
        Name::new(random, number, 2)
    }

    /// The first bytes of a command: its own and the tone's.
    fn begin(self, short: u8) -> Vec<u8> {
        let Name { number, is_twin } = self;
        let command = Command { short, is_twin };
        let tone = (number as u16).to_be_bytes();
        [&[command.byte()][..], &tone[2 - command.tone_bytes()..]].concat()
    }
}

/// Once in so many a line has more than 256 tones: each takes long to load.
const LARGE: usize = 40;

fn tones(random: &mut Random) -> usize {
    if random.once_in(LARGE) {
        let any = random.between(257, TONES as u64 - 1) as usize;
        return random.pick(&[257, 288, 511, 512, 513, any, any, any, TONES, TONES, TONES, TONES]);
    }
    let (low, high) = match random.below(8) {
        0 => return 1,
        1 => return random.pick(&[31, 32, 33, 63, 64, 65]),
        2 => return random.pick(&[160, 192, 193, 224, 225, 255, 255, 256, 256, 256, 256]),
        3 => (65, 256),
        4 => (17, 64),
        5 => (2, 4),
        _ => (1, 16),
    };
    random.between(low, high) as usize
}

/// A gap, two in five of them in tenths of a decibel; of 256, if costs are to be small.
fn some_gap(random: &mut Random, small: bool) -> Gap {
    let in_tenths = random.below(5) < 2;
    let any = random.between(256, 65_535) as u16;
    let any_tenths = random.between(0, MOST_TENTHS.into()) as u8;
    match (small, in_tenths) {
        (true, false) => Gap::Whole(256),
        (true, true) => Gap::Tenths(0),
        (false, false) => Gap::Whole(random.pick(&[256, 257, 65_535, any, any])),
        (false, true) => Gap::Tenths(random.pick(&[0, 1, 100, 240, any_tenths, any_tenths])),
    }
}

impl Plan {
    fn new(random: &mut Random, tones: usize) -> Plan {
        use Likeness::*;
        let likeness = random.pick(&[Equal, Ties, Ties, Cable, Edges, Any]);
        let small = random.pick(&[1, 1, 2, 3, 4, 6]);
        // Full lines by the longest commands: all by 09, or all by 04 or 05 with a high noise,
        // and with a rest.
        let longest = (tones == TONES).then(|| random.below(6));
        let (of_09, of_0c) = (longest == Some(0), longest == Some(1));
        Plan {
            tones,
            gap: some_gap(random, matches!(likeness, Ties)),
            likeness,
            equal: random.pick(&[(17, 5), (1, 1), (65_535, 1), (1, 65_535)]),
            singles: random.pick(&[0, 1, 2, 4]),
            readings: match longest {
                Some(0) => 4,
                Some(1) => 0,
                _ => random.pick(&[0, 0, 1, 2, 4]),
            },
            ratios: if of_09 { 0 } else { random.pick(&[0, 2, 4]) },
            tight_caps: random.once_in(3),
            tight_masks: random.once_in(2),
            rests: if of_09 || of_0c { 4 } else { random.pick(&[0, 0, 0, 1, 2, 4, 4]) },
            first_step: match likeness {
                Ties => small,
                _ => random.sized(LARGEST_COST).max(1),
            },
            ranges: if of_0c { 4 } else { random.pick(&[0, 0, 1, 2, 4]) },
            twins: random.pick(&[0, 0, 0, 0, 1, 2, 4]),
        }
    }

    fn noise_and_gain(&self, random: &mut Random, tone: usize) -> (u16, u16) {
        let share = tone as u64 * 65_000 / self.tones as u64;
        match self.likeness {
            Likeness::Equal => self.equal,
            Likeness::Ties => (random.pick(&[1, 2, 3, 3, 4, 5, 6, 12]), 1),
            Likeness::Cable => {
                let noise = 20 + share / 400 + random.between(0, 30);
                let gain = 65_100 - share + random.between(0, 400);
                (noise as u16, gain as u16)
            }
            Likeness::Edges => (random.pick(&[1, 65_535]), random.pick(&[1, 65_535])),
            Likeness::Any => (random.between(1, 65_535) as u16, random.between(1, 65_535) as u16),
        }
    }

    fn mask(&self, random: &mut Random, kind: Kind, cost: u64, most: u8) -> u64 {
        let edge = power(kind, cost, random.between(0, u64::from(most)) as u8);
        match random.below(if self.tight_masks { 8 } else { 40 }) {
            // No bits, but a rest.
            0 if self.rests > 0 => random.between(0, cost - 1),
            0 => 0,
            1 | 2 => edge,
            3 => edge.saturating_sub(1),
            4 => edge + 1,
            5 | 6 => random.sized(LARGEST_POWER),
            _ => LARGEST_POWER,
        }
    }

    /// A reading like the line's other tones: of their noise and gain, at an edge, or of
    /// any cost.
    fn reading(&self, random: &mut Random, noise: u16, gain: u16) -> Reading {
        let gap = self.gap.value();
        let ratio = random.below(4) < self.ratios;
        let whole = floats::of_whole(random, ratio, noise, gain);
        let cost = random.sized(LARGEST_COST).max(1);
        let reading = match self.likeness {
            Likeness::Edges => floats::at_edge(random, ratio, gap),
            Likeness::Any => floats::near_cost(random, ratio, gap, cost),
            _ => whole,
        };
        if reading.cost(gap).is_some() {
            reading
        } else {
            whole
        }
    }

    fn kind_and_given(&self, random: &mut Random, number: usize) -> (Kind, Given) {
        let (noise, gain) = self.noise_and_gain(random, number);
        let single = random.below(4) < self.singles;
        match random.below(4) < self.readings {
            true => (Kind::Pair, Given::Read(self.reading(random, noise, gain))),
            false if single => (Kind::Single, Given::Whole { noise, gain }),
            false => (Kind::Pair, Given::Whole { noise, gain }),
        }
    }

    /// The high noise of a tone, if it is to have one and can.
    fn high_noise(&self, random: &mut Random, given: Given) -> Option<u16> {
        match given {
            Given::Whole { noise, .. } if random.below(4) < self.ranges => {
                Some(some_high_noise(random, noise))
            }
            _ => None,
        }
    }

    /// A tone and its high noise. Where there is one, the mask goes by either noise.
    fn tone(&self, random: &mut Random, number: usize) -> (Tone, Option<u16>) {
        let (kind, given) = self.kind_and_given(random, number);
        let most = if kind == Kind::Single { 7 } else { 15 };
        let cap = match random.below(4) {
            0 if self.tight_caps => 0,
            1 if self.tight_caps => 1,
            2 => random.between(0, u64::from(most)) as u8,
            _ => most,
        };
        let high = self.high_noise(random, given);
        let by = match (given, high) {
            (Given::Whole { gain, .. }, Some(noise)) if random.once_in(2) => {
                Given::Whole { noise, gain }
            }
            _ => given,
        };
        let tone = Tone { kind, given, cap, mask: 0 };
        let cost = Tone { given: by, ..tone }.cost(self.gap.value());
        (Tone { mask: self.mask(random, kind, cost, most), ..tone }, high)
    }

    /// A rest that a tone can have: at an end, with the line's first step, or any.
    fn rest(&self, random: &mut Random, tone: &Tone) -> u32 {
        let gap = self.gap.value();
        let most = largest_rest(tone, gap);
        let one_bit = power(tone.kind, tone.cost(gap), 1);
        let rest = match random.below(8) {
            0 => 0,
            1 => 1,
            2 | 3 => most,
            4..=6 => one_bit.saturating_sub(self.first_step),
            _ => random.between(0, most),
        };
        rest.min(most) as u32
    }
}

/// A high noise that a tone can have: its noise, one near it, some times as much, the largest,
/// or any.
fn some_high_noise(random: &mut Random, noise: u16) -> u16 {
    let any = random.between(noise.into(), 65_535) as u16;
    let near = noise.saturating_add(random.between(1, 12) as u16);
    let [one_more, twice, four_times] =
        [noise.saturating_add(1), noise.saturating_mul(2), noise.saturating_mul(4)];
    random.pick(&[noise, one_more, near, near, twice, four_times, u16::MAX, any])
}

/// The largest rest that a tone can have at a gap.
pub fn largest_rest(tone: &Tone, gap: u64) -> u64 {
    (tone.cost(gap) - 1).min(tone.mask)
}

/// The command that describes a tone, as it stands in a sheet.
pub fn description(name: Name, Tone { kind, given, cap, mask }: Tone) -> Vec<u8> {
    match given {
        Given::Whole { noise, gain } => tone(kind == Kind::Single, name, noise, gain, cap, mask),
        Given::Read(read) => reading(name, read, cap, mask),
    }
}

/// Command 09 or 0A, with any floats.
pub fn reading(name: impl Into<Name>, reading: Reading, cap: u8, mask: u64) -> Vec<u8> {
    let name = name.into();
    let mut bytes = match reading {
        Reading::NoiseAndGain(noise, gain) => {
            [&name.begin(9)[..], &noise.to_be_bytes(), &gain.to_be_bytes()].concat()
        }
        Reading::Ratio(ratio) => [&name.begin(10)[..], &ratio.to_be_bytes()].concat(),
    };
    bytes.push(cap);
    bytes.extend(mask.to_be_bytes());
    bytes
}

pub fn tone(
    single: bool,
    name: impl Into<Name>,
    noise: u16,
    gain: u16,
    cap: u8,
    mask: u64,
) -> Vec<u8> {
    let mut bytes = name.into().begin(if single { 5 } else { 4 });
    bytes.extend(noise.to_be_bytes());
    bytes.extend(gain.to_be_bytes());
    bytes.push(cap);
    bytes.extend(mask.to_be_bytes());
    bytes
}

/// The tone that a command names, if it has one.
pub fn named(command: &[u8]) -> Option<usize> {
    let has = Command::of(command[0]).filter(|command| command.has_tone())?;
    Some(totals::number(command.get(1..1 + has.tone_bytes())?) as usize)
}

pub fn describes_a_tone(command: &[u8]) -> bool {
    Command::of(command[0]).is_some_and(Command::describes_a_tone)
}

/// Whether a command describes this tone.
pub fn describes(command: &[u8], number: usize) -> bool {
    describes_a_tone(command) && named(command) == Some(number)
}

pub fn rest(name: impl Into<Name>, rest: u32) -> Vec<u8> {
    let mut bytes = name.into().begin(11);
    bytes.extend(rest.to_be_bytes());
    bytes
}

pub fn high_noise(name: impl Into<Name>, high: u16) -> Vec<u8> {
    let mut bytes = name.into().begin(12);
    bytes.extend(high.to_be_bytes());
    bytes
}

pub fn silence(word: u8, map: u32) -> Vec<u8> {
    let mut bytes = vec![6, word];
    bytes.extend(map.to_be_bytes());
    bytes
}

/// A silence that names tones of the line only; often few, sometimes none.
pub fn some_silence(random: &mut Random, tones: usize) -> Vec<u8> {
    let of_line = random.below(tones.div_ceil(32).max(8));
    let word = if random.once_in(12) { random.below(WORDS) } else { of_line };
    let on_line = tones.saturating_sub(32 * word).min(32);
    let within = ((1u64 << on_line) - 1) as u32;
    let any = random.next();
    let map = match random.below(5) {
        0 => 0,
        1 => u32::MAX,
        2 => 1 << random.below(32),
        3 => (any & any >> 8 & any >> 16) as u32,
        _ => any as u32,
    };
    silence(word as u8, map & within)
}

pub fn whole_gap(gap: u16) -> Vec<u8> {
    let mut bytes = vec![2];
    bytes.extend(gap.to_be_bytes());
    bytes
}

/// The first three commands, the end command, and nothing described.
pub fn bare(tones: usize, gap: Gap, budget: u64) -> Commands {
    let gap = match gap {
        Gap::Whole(gap) => whole_gap(gap),
        Gap::Tenths(tenths) => vec![8, tenths],
    };
    let mut commands = vec![vec![1], gap, vec![3], vec![7]];
    commands[0].extend((tones as u16).to_be_bytes());
    commands[2].extend(budget.to_be_bytes());
    commands
}

/// A sheet that is sound so far, with another budget.
pub fn with_budget(sheet: &[u8], budget: u64) -> Vec<u8> {
    // Its operand follows the size, the gap by 02 or 08, and its own command byte.
    let place = if sheet[3] == 2 { 7 } else { 6 };
    [&sheet[..place], &budget.to_be_bytes(), &sheet[place + 8..]].concat()
}

/// A sheet that is accepted, with every high noise in the place of its tone's noise too.
pub fn at_high_noises(sheet: &[u8]) -> Vec<u8> {
    let (mut raised, mut places) = (sheet.to_vec(), [0; TONES]);
    let mut at = 0;
    while let Some(command) = sheet.get(at).and_then(|byte| Command::of(*byte)) {
        let end = at + command.length();
        match (command.short, named(&sheet[at..end])) {
            (4 | 5, Some(tone)) => places[tone] = at + 1 + command.tone_bytes(),
            (12, Some(tone)) => raised.copy_within(end - 2..end, places[tone]),
            _ => {}
        }
        at = end;
    }
    raised
}

fn described(random: &mut Random, tones: usize) -> Vec<usize> {
    let mut numbers: Vec<usize> = (0..tones).collect();
    let order = random.below(3);
    if order == 1 {
        numbers.reverse();
    }
    let count = match random.below(6) {
        0 => random.below(tones.min(3) + 1),
        1 => random.below(tones + 1),
        _ => tones,
    };
    if order == 2 || random.once_in(2) {
        random.shuffle(&mut numbers);
    }
    numbers.truncate(count);
    numbers
}

/// A power at which the tone decides between a step of tone 255 and one of tone 256, if a
/// loading comes to one.
fn at_256(random: &mut Random, mut run: Running) -> Option<u64> {
    let (mut last, mut found) = (None, None);
    while let Some((size, tone)) = run.earliest_free() {
        if tone == 256 && last == Some((size, 255)) {
            found = Some(run.total_power + random.pick(&[0, 0, size - 1]));
            if random.once_in(2) {
                break;
            }
        }
        last = Some((size, tone));
        if !run.add() {
            break;
        }
    }
    found
}

/// A budget: at an end, exactly at what some table needs or next to it, or any; but never
/// under the rests. The table is of the line at its noises or at the high ones.
fn budget(random: &mut Random, commands: &Commands) -> u64 {
    let mut line = read(&commands.concat()).expect("a valid sheet");
    if random.once_in(2) {
        line = line.at_high_noises();
    }
    let mut run = Running::nothing(&line);
    if run.tones > 256 && random.once_in(3) {
        if let Some(budget) = at_256(random, Running::nothing(&line)) {
            return budget;
        }
    }
    let full = run.limit.clone();
    let bits: usize = full.iter().map(|bits| usize::from(*bits)).sum();
    let full_power = (0..run.tones).map(|tone| run.power_at(tone, full[tone])).sum();
    let rests = run.total_power;
    if rests > 0 && random.once_in(6) {
        return rests + random.pick(&[0, 0, 1, 3]);
    }
    let budget = match random.below(10) {
        0 => random.pick(&[0, 0, 1, LARGEST_POWER]),
        1 => random.between(1, 12),
        2 => random.sized(LARGEST_POWER),
        3 => full_power,
        4 => full_power.saturating_sub(1),
        5 => random.sized(full_power),
        6 => random.between(0, full_power),
        kind => {
            let moves = random.below(bits + 1);
            for _ in 0..moves {
                run.add();
            }
            (run.total_power + 8).saturating_sub(kind as u64)
        }
    };
    budget.max(rests)
}

/// Puts in rests, or high noises, each anywhere after its tone's command, or all straight
/// after it.
fn put_after_tones(random: &mut Random, commands: &mut Commands, new: Commands) {
    let straight = random.once_in(3);
    for new in new {
        let number = named(&new).expect("a tone");
        let of_tone = |command: &Vec<u8>| describes(command, number);
        let next = 1 + commands.iter().position(of_tone).expect("its tone is described");
        let any = random.between(next as u64, commands.len() as u64 - 1) as usize;
        commands.insert(if straight { next } else { any }, new);
    }
}

/// A sheet has room for a full line by the longest twins, with a rest and a high noise on each
/// tone and some silences.
fn commands_of(random: &mut Random, tones: usize) -> Commands {
    let plan = Plan::new(random, tones);
    let mut commands = bare(tones, plan.gap, LARGEST_POWER);
    let end = commands.pop();
    let (mut rests, mut highs) = (Vec::new(), Vec::new());
    for number in described(random, tones) {
        let (tone, high) = plan.tone(random, number);
        if random.below(4) < plan.rests {
            let name = Name::new(random, number, plan.twins);
            rests.push(rest(name, plan.rest(random, &tone)));
        }
        if let Some(high) = high {
            let name = Name::new(random, number, plan.twins);
            highs.push(high_noise(name, high));
        }
        let name = Name::new(random, number, plan.twins);
        commands.push(description(name, tone));
    }
    commands.extend(end);
    let mut later = [rests, highs];
    random.shuffle(&mut later);
    later.into_iter().for_each(|new| put_after_tones(random, &mut commands, new));
    for _ in 0..random.pick(&[0, 0, 1, 2, 12]) {
        let place = 3 + random.below(commands.len() - 3);
        commands.insert(place, some_silence(random, tones));
    }
    let budget = budget(random, &commands);
    commands[2][1..].copy_from_slice(&budget.to_be_bytes());
    commands
}

/// A valid sheet, as its commands.
pub fn commands(random: &mut Random) -> Commands {
    let tones = tones(random);
    let mut commands = commands_of(random, tones);
    if random.once_in(40) {
        fill(random, &mut commands, tones, LARGEST_SHEET);
    }
    commands
}

/// The twin of a command, which says the same.
fn widened(command: &[u8]) -> Vec<u8> {
    let mut bytes = Name { number: command[1].into(), is_twin: true }.begin(command[0]);
    bytes.extend(&command[2..]);
    bytes
}

/// Silences, most of them empty, up to so many bytes. Where they do not come to that, some
/// commands become twins, if there are enough.
pub fn fill(random: &mut Random, commands: &mut Commands, tones: usize, bytes: usize) {
    let left = bytes - commands.concat().len();
    let mut lacking = left % 6;
    for command in commands.iter_mut() {
        if lacking > 0 && named(command).is_some() && command[0] < TWIN {
            *command = widened(command);
            lacking -= 1;
        }
    }
    let silences = (0..left / 6).map(|_| match random.once_in(800) {
        true => some_silence(random, tones),
        false => silence(random.below(WORDS) as u8, 0),
    });
    commands.splice(3..3, silences);
}

/// A valid sheet of one to three tones: few enough tables to try them all.
#[cfg(test)]
pub fn small(seed: u64, index: u64) -> Vec<u8> {
    let mut random = Random::new(seed, index);
    let tones = random.between(1, 3) as usize;
    commands_of(&mut random, tones).concat()
}

/// A valid sheet of more than 256 tones.
#[cfg(test)]
pub fn large(seed: u64, index: u64) -> Vec<u8> {
    let mut random = Random::new(seed, index);
    let tones = random.between(257, TONES as u64) as usize;
    commands_of(&mut random, tones).concat()
}

#[cfg(test)]
mod tests {
    use super::*;
    use crate::paper::line::Line;
    use std::collections::BTreeMap;

    /// Of the sheets that are made, each command that gives the gap has a good share.
    #[test]
    fn gaps_of_both_commands() {
        let gap = |index| commands(&mut Random::new(1, index))[1][0];
        let in_tenths = (0..500).filter(|&index| gap(index) == 8).count();
        assert!((150..250).contains(&in_tenths), "{in_tenths} of 500 sheets have 08");
    }

    /// Of their tones, each command that describes one has a good share; and there are
    /// lines as full of each command of readings as a sheet can be.
    #[test]
    fn tones_of_every_command() {
        let (mut tones, mut twins, mut lines) = ([0; 11], [0; 11], [0; 11]);
        for index in 0..12_000 {
            let commands = commands(&mut Random::new(1, index));
            let count = |byte| commands.iter().filter(|bytes| bytes[0] == byte).count();
            for command in [4, 5, 9, 10] {
                let (short, twin) = (count(command), count(command + TWIN));
                let command = usize::from(command);
                tones[command] += short;
                twins[command] += twin;
                lines[command] += u32::from(short + twin == TONES);
            }
        }
        for tones in [tones, twins] {
            let all: usize = tones.iter().sum();
            let share = |command: usize| 8 * tones[command] > all;
            assert!([4, 5, 9, 10].into_iter().all(share), "tones by command: {tones:?}");
        }
        assert!(lines[4] >= 5 && lines[9] >= 5 && lines[10] >= 1, "full lines: {lines:?}");
    }

    /// What is to be seen of a tone's rest that is not 0.
    fn sorts_of_rest(line: &Line, number: usize, tone: &Tone) -> [(&'static str, bool); 7] {
        let (rest, cost) = (u64::from(line.rests[number]), tone.cost(line.gap.value()));
        let command = match (tone.given, tone.kind) {
            (Given::Whole { .. }, Kind::Pair) => "by 04",
            (Given::Whole { .. }, Kind::Single) => "by 05",
            (Given::Read(Reading::NoiseAndGain(..)), _) => "by 09",
            (Given::Read(Reading::Ratio(_)), _) => "by 0A",
        };
        [
            (command, true),
            ("of 1", rest == 1),
            ("one below the cost", rest == cost - 1),
            ("at a mask below that", rest == tone.mask && rest < cost - 1),
            ("of three bytes", rest >= 1 << 16),
            ("of a silenced tone", line.is_silenced(number)),
            ("of a tone with limit 0", line.rest(number) > 0 && line.limit(number).0 == 0),
        ]
    }

    /// What is to be seen of a sheet's rests.
    fn sorts_of_sheet(line: &Line, commands: &Commands) -> [(&'static str, bool); 5] {
        let of = |short, command: &[u8]| [short, short + TWIN].contains(&command[0]);
        let count = |short| commands.iter().filter(|command| of(short, command)).count();
        let zero = |command: &Vec<u8>| of(11, command) && command.ends_with(&[0; 4]);
        let (sum, budget) = (line.sum_of_rests(), line.budget);
        [
            ("of 0", commands.iter().any(zero)),
            ("on 1,024 tones", count(11) == TONES),
            ("on 1,024 tones of 09", count(11) == TONES && count(9) == TONES),
            ("as large as the budget", sum > 0 && sum == budget),
            ("one below the budget", sum > 0 && sum + 1 == budget),
        ]
    }

    /// Rests at both ends, of tones by each command, silenced or with no bits; budgets at
    /// their sum; and sheets as full of them as they can be.
    #[test]
    fn rests_of_every_sort() {
        let mut counts = BTreeMap::new();
        let mut count = |sorts: &[(&'static str, bool)]| {
            for &(sort, is) in sorts {
                *counts.entry(sort).or_insert(0) += u32::from(is);
            }
        };
        for index in 0..12_000 {
            let commands = commands(&mut Random::new(1, index));
            let line = read(&commands.concat()).expect("a valid sheet");
            count(&sorts_of_sheet(&line, &commands));
            for (number, tone) in line.described.iter().enumerate() {
                match tone {
                    Some(tone) if line.rests[number] > 0 => {
                        count(&sorts_of_rest(&line, number, tone));
                    }
                    _ => {}
                }
            }
        }
        let all = counts.len() == 15 && counts.values().all(|&count| count > 5);
        assert!(all, "rests: {counts:#?}");
    }

    /// Where a command of a tone first stands, by its short byte.
    fn place(commands: &Commands, short: u8, number: usize) -> Option<usize> {
        commands.iter().position(|command| {
            [short, short + TWIN].contains(&command[0]) && named(command) == Some(number)
        })
    }

    /// What is to be seen of a tone with a high noise.
    fn sorts_of_high_noise(
        line: &Line,
        commands: &Commands,
        number: usize,
    ) -> [(&'static str, bool); 13] {
        let tone = line.described[number].expect("a described tone");
        let Given::Whole { noise, .. } = tone.given else { unreachable!("no reading has one") };
        let at = |short| place(commands, short, number);
        let (own, given) =
            (at(tone.short()).expect("it is described"), at(12).expect("it has one"));
        let (raised, high) = (line.at_high_noises(), line.high_noises[number]);
        let cost = |line: &Line| line.described[number].map(|tone| tone.cost(line.gap.value()));
        let limits = (line.limit(number).0, raised.limit(number).0);
        [
            ("of a pair tone", tone.kind == Kind::Pair),
            ("of a single tone", tone.kind == Kind::Single),
            ("of the noise", high.is_none()),
            ("one above the noise", high.is_some_and(|high| high == noise + 1)),
            ("of 65,535", high == Some(u16::MAX)),
            ("before the rest", at(11).is_some_and(|rest| given < rest)),
            ("after the rest", at(11).is_some_and(|rest| rest < given)),
            ("straight after the tone", given == own + 1),
            ("after other commands", given > own + 2),
            ("at one cost", high.is_some() && cost(line) == cost(&raised)),
            ("at a lower limit", limits.1 > 0 && limits.1 < limits.0),
            ("of a silenced tone", line.is_silenced(number)),
            ("1C below 256", number < 256 && commands[given][0] == 0x1c),
        ]
    }

    /// What is to be seen of a line's guarded loading.
    fn sorts_of_guarded(line: &Line, commands: &Commands) -> [(&'static str, bool); 6] {
        let [plain, guarded] = [line, &line.at_high_noises()].map(|line| {
            let mut run = Running::nothing(line);
            run.add_all();
            run
        });
        let count = (0..TONES).filter(|number| place(commands, 12, *number).is_some()).count();
        let rested = |number: usize| place(commands, 11, number).is_some();
        [
            ("on 1,024 tones", count == TONES),
            ("on 1,024 tones with rests", count == TONES && (0..TONES).all(rested)),
            ("another table", plain.bits != guarded.bits),
            ("fewer bits", plain.total_bits > guarded.total_bits),
            (
                "as many bits, elsewhere",
                plain.total_bits == guarded.total_bits && plain.bits != guarded.bits,
            ),
            (
                "its budget used up",
                guarded.total_bits > 0
                    && plain.total_bits > guarded.total_bits
                    && guarded.total_power == line.budget,
            ),
        ]
    }

    /// High noises at both ends and between, of tones by each command that can have one, in
    /// every order with rests; and lines whose guarded loading is another.
    #[test]
    fn high_noises_of_every_sort() {
        let mut counts = BTreeMap::new();
        let mut count = |sorts: &[(&'static str, bool)]| {
            for &(sort, is) in sorts {
                *counts.entry(sort).or_insert(0) += u32::from(is);
            }
        };
        for index in 0..12_000 {
            let commands = commands(&mut Random::new(1, index));
            let line = read(&commands.concat()).expect("a valid sheet");
            let has = |number: &usize| place(&commands, 12, *number).is_some();
            let few = line.tones <= 16;
            if few || line.tones == TONES {
                count(&sorts_of_guarded(&line, &commands));
            }
            for number in (0..line.tones).filter(|number| few && has(number)) {
                count(&sorts_of_high_noise(&line, &commands, number));
            }
        }
        let all = counts.len() == 19 && counts.values().all(|&count| count > 5);
        assert!(all, "high noises: {counts:#?}");
    }

    /// A sheet with its high noises in the place of its noises says the line that has them
    /// there.
    #[test]
    fn noises_raised_in_a_sheet() {
        for index in 0..3_000 {
            let sheet = commands(&mut Random::new(1, index)).concat();
            let line = read(&sheet).expect("a valid sheet");
            assert_eq!(read(&at_high_noises(&sheet)), Ok(line.at_high_noises()));
        }
    }

    /// Rests make first steps equal to each other and to later steps, so that the tone
    /// decides; and on some lines the budget ends a loading between two of them.
    #[test]
    fn ties_made_by_rests() {
        let (mut first, mut later, mut ended) = (0, 0, 0);
        for index in 0..4_000 {
            let line = read(&commands(&mut Random::new(1, index)).concat()).expect("a valid sheet");
            let mut run = Running::nothing(&line);
            // The size of the last step, whether it was a tone's first, and with a rest.
            let mut last = (0, false, false);
            while let Some((size, tone)) = run.earliest_free() {
                let is_first = run.bits[tone] == 0;
                let step = (size, is_first, is_first && line.rest(tone) > 0);
                if step.0 == last.0 && (step.2 || last.2) {
                    let both_first = step.1 && last.1;
                    *(if both_first { &mut first } else { &mut later }) += 1;
                    ended += u32::from(run.total_power + size > run.budget);
                }
                last = step;
                if !run.add() {
                    break;
                }
            }
        }
        let said = format!("{first} first steps, {later} later ones, {ended} at an end");
        assert!(first > 1_000 && later > 300 && ended > 20, "{said}");
    }

    /// The costs of readings are of every size.
    #[test]
    fn costs_of_every_size() {
        let mut sizes = [0; 25];
        for index in 0..2_000 {
            let line = read(&commands(&mut Random::new(1, index)).concat()).expect("a valid sheet");
            for tone in line.described.iter().flatten() {
                if let Given::Read(reading) = tone.given {
                    let cost = reading.cost(line.gap.value()).expect("it was accepted");
                    sizes[cost.ilog2() as usize] += 1;
                }
            }
        }
        assert!(sizes[..24].iter().all(|&count| count > 100), "costs from 2^k on: {sizes:?}");
    }

    /// Of their tones, each of the three that set a limit has a good share.
    #[test]
    fn limits_set_by_each() {
        let mut tones = [0; 3];
        for index in 0..500 {
            let line = read(&commands(&mut Random::new(1, index)).concat()).expect("a valid sheet");
            (0..line.tones).for_each(|tone| tones[line.limit(tone).1 as usize] += 1);
        }
        let all: usize = tones.iter().sum();
        assert!(tones.iter().all(|count| 8 * count > all), "silent, cap, mask: {tones:?}");
    }
}
