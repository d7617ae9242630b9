//! The claim of document 02's request W9, tried on small lines: "For every choice of noises
//! inside the ranges its table keeps limits and budget, and no table with that property
//! carries more bits, or as many with less power at the high noises." All tables are tried.

use crate::calls::{self, Call, Outcome};
use crate::compare::hex;
use crate::inputs::Input;
use crate::paper::gap::Gap;
use crate::paper::line::{power, read, Given, Kind, Line, Tone, LARGEST_POWER};
use crate::paper::reading::Reading;
use crate::paper::{ANSWER_BYTES, BYTES_A_TONE};
use crate::random::Random;
use crate::sheets::{bare, description, high_noise, largest_rest, rest, silence, Name};
use crate::totals::{answered, entries, number};

/// How many lines are tried.
const LINES: u64 = 10_000;
const SEED: u64 = 9;
/// Ranges have at most so many noises.
const NOISES: u16 = 5;

// ---- Small lines ----

/// A tone with few bits, and its high noise; one in eight is a reading, which has none.
fn tone(random: &mut Random, gap: u64) -> (Tone, Option<u16>) {
    let (noise, gain) = (random.between(1, 12) as u16, random.between(1, 3) as u16);
    let high = noise + random.below(NOISES.into()) as u16;
    let ratio = (f32::from(noise) / f32::from(gain)).to_bits();
    let (kind, given, most) = match random.below(8) {
        0 => (Kind::Pair, Given::Read(Reading::Ratio(ratio)), 4),
        1 | 2 => (Kind::Single, Given::Whole { noise, gain }, 3),
        _ => (Kind::Pair, Given::Whole { noise, gain }, 4),
    };
    let any = random.between(0, most);
    let cap = random.pick(&[most, most, any]) as u8;
    let tone = Tone { kind, given, cap, mask: LARGEST_POWER };
    let is_whole = matches!(given, Given::Whole { .. });
    let high = (is_whole && !random.once_in(4)).then_some(high);
    let end = at_noise(&tone, if random.once_in(2) { high } else { None });
    let edge = power(kind, end.cost(gap), random.between(1, most) as u8);
    let mask = random.pick(&[0, 200, LARGEST_POWER, edge, edge, edge + 1, edge - 1]);
    (Tone { mask, ..tone }, high)
}

/// The commands of a tone: its own, and its rest and high noise in either order.
fn commands(random: &mut Random, gap: u64, number: usize) -> Vec<u8> {
    let (tone, high) = tone(random, gap);
    let most = largest_rest(&tone, gap);
    let power = random.between(0, most) as u32;
    let mut later = [
        random.once_in(3).then(|| rest(Name::any(random, number), power)),
        high.map(|high| high_noise(Name::any(random, number), high)),
    ];
    random.shuffle(&mut later);
    let own = description(Name::any(random, number), tone);
    later.into_iter().flatten().fold(own, |commands, new| [commands, new].concat())
}

/// What some table within the limits takes at one end of the ranges, or next to that; but no
/// less than the rests.
fn budget(random: &mut Random, line: &Line) -> u64 {
    let high = random.once_in(2);
    let total: u64 = tones(line)
        .iter()
        .map(|noises| {
            let tone = if high { highest(noises) } else { noises[0] };
            tone.power(random.between(0, tone.limit.into()) as u8)
        })
        .sum();
    random.pick(&[total, total, total + 1, total.saturating_sub(1)]).max(line.sum_of_rests())
}

/// Two to four tones, of which one in twelve is not described; once in four one is silenced.
fn sheet(index: u64) -> Vec<u8> {
    let mut random = Random::new(SEED, index);
    let tones = random.between(2, 4) as usize;
    let gap = random.pick(&[256, 256, 257, 300, 512]);
    let mut all = bare(tones, Gap::Whole(gap), LARGEST_POWER);
    for number in (0..tones).filter(|_| !random.once_in(12)).collect::<Vec<_>>() {
        all.insert(all.len() - 1, commands(&mut random, gap.into(), number));
    }
    if random.once_in(4) {
        all.insert(all.len() - 1, silence(0, 1 << random.below(tones)));
    }
    let line = read(&all.concat()).expect("a valid sheet");
    all[2][1..].copy_from_slice(&budget(&mut random, &line).to_be_bytes());
    all.concat()
}

// ---- Every choice of noises, and every table ----

/// A tone with another noise, if there is one.
fn at_noise(tone: &Tone, noise: Option<u16>) -> Tone {
    let given = match (tone.given, noise) {
        (Given::Whole { gain, .. }, Some(noise)) => Given::Whole { noise, gain },
        (given, _) => given,
    };
    Tone { given, ..*tone }
}

/// A tone of a line at one noise.
#[derive(Clone, Copy)]
struct AtNoise {
    kind: Kind,
    cost: u64,
    rest: u64,
    limit: u8,
}

impl AtNoise {
    fn new(line: &Line, number: usize, tone: &Tone) -> AtNoise {
        let (kind, cost) = (tone.kind, tone.cost(line.gap.value()));
        let within = |bits: &u8| power(kind, cost, *bits) <= tone.mask;
        let largest = (0..=tone.cap).filter(within).max().unwrap_or(0);
        let limit = if line.is_silenced(number) { 0 } else { largest };
        AtNoise { kind, cost, rest: line.rest(number), limit }
    }

    /// That of no bits is the rest.
    fn power(&self, bits: u8) -> u64 {
        match bits {
            0 => self.rest,
            _ => power(self.kind, self.cost, bits),
        }
    }
}

/// Each tone of a line at each noise of its range, the lowest first.
type Tones = Vec<Vec<AtNoise>>;

fn tones(line: &Line) -> Tones {
    let noises = |number: usize| match (&line.described[number], line.high_noises[number]) {
        (None, _) => vec![AtNoise { kind: Kind::Pair, cost: 1, rest: 0, limit: 0 }],
        (Some(tone), Some(high)) => match tone.given {
            Given::Whole { noise, .. } => (noise..=high)
                .map(|noise| AtNoise::new(line, number, &at_noise(tone, Some(noise))))
                .collect(),
            Given::Read(_) => unreachable!("a reading has no high noise"),
        },
        (Some(tone), None) => vec![AtNoise::new(line, number, tone)],
    };
    (0..line.tones).map(noises).collect()
}

/// The last of a tone's noises.
fn highest(noises: &[AtNoise]) -> AtNoise {
    noises[noises.len() - 1]
}

/// The same at the ends of the ranges alone.
fn ends(tones: &Tones) -> Tones {
    tones.iter().map(|noises| vec![noises[0], highest(noises)]).collect()
}

/// The same at the low noises alone.
fn lowest(tones: &Tones) -> Tones {
    tones.iter().map(|noises| vec![noises[0]]).collect()
}

/// Whether a table keeps limits and budget at every choice of noises.
fn keeps(tones: &[Vec<AtNoise>], bits: &[u8], budget: u64) -> bool {
    let ([noises, tones @ ..], [first, bits @ ..]) = (tones, bits) else { return true };
    noises.iter().all(|tone| {
        let fits = |left| keeps(tones, bits, left);
        *first <= tone.limit && budget.checked_sub(tone.power(*first)).is_some_and(fits)
    })
}

/// Every table: with more bits than one above its cap, at any noise, a tone is over its limit
/// too.
fn tables(line: &Line) -> Vec<Vec<u8>> {
    let mut tables = vec![Vec::new()];
    for tone in &line.described {
        let most = tone.map_or(1, |tone| tone.cap + 1);
        let with = |table: &Vec<u8>| {
            let table = table.clone();
            (0..=most).map(move |bits| [&table[..], &[bits]].concat())
        };
        tables = tables.iter().flat_map(with).collect();
    }
    tables
}

fn total(bits: &[u8]) -> u64 {
    bits.iter().map(|bits| u64::from(*bits)).sum()
}

/// The power of a table at the high noises.
fn power_at_high(tones: &Tones, bits: &[u8]) -> u64 {
    tones.iter().zip(bits).map(|(noises, bits)| highest(noises).power(*bits)).sum()
}

/// The most bits of any table that keeps limits and budget.
fn most_bits(tones: &Tones, budget: u64, tables: &[Vec<u8>]) -> u64 {
    let kept = tables.iter().filter(|bits| keeps(tones, bits, budget));
    kept.map(|bits| total(bits)).max().unwrap_or(0)
}

/// The bits of the table that was written, if its powers and totals are theirs at the high
/// noises.
fn written(tones: &Tones, input: &Input, outcome: &Outcome) -> Result<Vec<u8>, String> {
    let bits = bits(input, outcome);
    for (tone, entry) in entries(input, outcome).enumerate() {
        let high = highest(&tones[tone]);
        if bits[tone] > high.limit {
            return Err(format!("tone {tone} has more bits than its limit at the high noise"));
        }
        if number(&entry[1..]) != high.power(bits[tone]) {
            return Err(format!("tone {tone} has another power at the high noise"));
        }
    }
    let totals = (total(&bits), power_at_high(tones, &bits));
    match totals == (answered(outcome, 0), answered(outcome, 1)) {
        true => Ok(bits),
        false => Err(format!("the totals of its table are {} and {}", totals.0, totals.1)),
    }
}

/// Holds a guarded loading to the claim. How many tables there are.
fn judge(input: &Input, outcome: &Outcome) -> Result<usize, String> {
    let line = read(&input.sheet).expect("a valid sheet");
    if outcome.returned != 0 {
        return Err("a valid sheet is refused".to_string());
    }
    let (tones, tables) = (tones(&line), tables(&line));
    let bits = written(&tones, input, outcome)?;
    if !keeps(&tones, &bits, line.budget) {
        return Err("at some choice of noises its table breaks a limit or the budget".to_string());
    }
    let ends = ends(&tones);
    let (carried, power) = (total(&bits), power_at_high(&ends, &bits));
    for other in tables.iter().filter(|other| total(other) >= carried) {
        let is_better = total(other) > carried || power_at_high(&ends, other) < power;
        if is_better && keeps(&ends, other, line.budget) {
            return Err(format!("{other:?} is better than its table, {bits:?}"));
        }
    }
    match most_bits(&lowest(&tones), line.budget, &tables) {
        most if most == answered(outcome, 2) => Ok(tables.len()),
        most => Err(format!("the most bits at the low noises are {most}")),
    }
}

// ---- The part ----

fn input(index: u64) -> Input {
    let sheet = sheet(index);
    let table = vec![0; BYTES_A_TONE * read(&sheet).expect("a valid sheet").tones];
    Input { sheet, table, answer: vec![0; ANSWER_BYTES], ..Input::default() }
}

/// The bits of a table.
fn bits(input: &Input, outcome: &Outcome) -> Vec<u8> {
    entries(input, outcome).map(|entry| entry[0]).collect()
}

/// A line that was tried: how many tables it has, and the bits of two of them.
struct Tried {
    tables: usize,
    guarded: Vec<u8>,
    plain: Vec<u8>,
}

fn tried(index: u64) -> Result<Tried, String> {
    let input = input(index);
    let told = |failure: String| {
        let sheet = format!("sheet, {} bytes: {}", input.sheet.len(), hex(&input.sheet));
        format!("outside_guarded\n  {sheet}\n{failure}\nagain: tests/run --one ranges {index}")
    };
    let guarded = calls::ours(Call::Guarded, &input).map_err(told)?;
    let plain = calls::ours(Call::LoadMost, &input).map_err(told)?;
    let tables = judge(&input, &guarded).map_err(told)?;
    let [guarded, plain] = [guarded, plain].map(|outcome| bits(&input, &outcome));
    Ok(Tried { tables, guarded, plain })
}

/// One line again.
pub fn one(index: u64) -> Result<String, String> {
    let Tried { tables, guarded, plain } = tried(index)?;
    let sheet = hex(&input(index).sheet);
    Ok(format!("sheet: {sheet}\nguarded {guarded:?}, plain {plain:?}, best of {tables} tables"))
}

pub fn compare() -> Result<String, String> {
    let (mut tables, mut unlike) = (0, 0);
    for index in 0..LINES {
        let line = tried(index)?;
        tables += line.tables;
        unlike += u64::from(line.guarded != line.plain);
    }
    if unlike == 0 {
        return Err("every guarded table is the plain one: too few lines".to_string());
    }
    Ok(format!(
        "{LINES} small lines, {tables} tables, at every choice of noises; {unlike} guarded tables \
         are not the plain ones"
    ))
}

#[cfg(test)]
mod tests {
    use super::*;
    use crate::calls::papers;
    use std::collections::BTreeMap;

    fn line(input: &Input) -> Line {
        read(&input.sheet).expect("a valid sheet")
    }

    #[test]
    fn independent_loader_keeps_the_claim() {
        for index in 0..LINES {
            let input = input(index);
            let judged = judge(&input, &papers(Call::Guarded, &input));
            assert!(judged.is_ok(), "line {index}: {judged:?}");
        }
    }

    /// The outcome with other bits, at their powers and with their totals.
    fn with_bits(input: &Input, outcome: &Outcome, bits: &[u8]) -> Outcome {
        let tones = tones(&line(input));
        let power = |tone: usize| highest(&tones[tone]).power(bits[tone]);
        let entry = |tone: usize| [&[bits[tone]][..], &power(tone).to_be_bytes()].concat();
        let destination = (0..bits.len()).flat_map(entry).collect();
        let totals = [total(bits), power_at_high(&tones, bits)].map(u64::to_be_bytes);
        let answer = [&totals.concat()[..], &outcome.answer[16..]].concat();
        Outcome { returned: 0, destination, answer }
    }

    /// Wrong outcomes made from a right one, each with its name.
    fn wrong(input: &Input, right: &Outcome) -> Vec<(&'static str, Outcome)> {
        let changed = |change: fn(&mut Outcome)| {
            let Outcome { returned, destination, answer } = right;
            let (destination, answer) = (destination.clone(), answer.clone());
            let mut outcome = Outcome { returned: *returned, destination, answer };
            change(&mut outcome);
            outcome
        };
        let bits = bits(input, right);
        let mut wrong = vec![
            ("refused", changed(|outcome| outcome.returned = 8 << 32)),
            ("another power", changed(|outcome| outcome.destination[8] ^= 1)),
            ("other total bits", changed(|outcome| outcome.answer[7] ^= 1)),
            ("another total power", changed(|outcome| outcome.answer[15] ^= 1)),
            ("other plain bits", changed(|outcome| outcome.answer[23] ^= 1)),
        ];
        for tone in 0..bits.len() {
            let [mut fewer, mut more] = [bits.clone(), bits.clone()];
            more[tone] += 1;
            wrong.push(("a bit more", with_bits(input, right, &more)));
            if bits[tone] > 0 {
                fewer[tone] -= 1;
                wrong.push(("a bit fewer", with_bits(input, right, &fewer)));
            }
        }
        wrong
    }

    /// Outcomes that are nearly right; and the plain table, where it carries more bits.
    #[test]
    fn wrong_outcomes_are_found() {
        let mut counts = BTreeMap::new();
        for index in 0..1_000 {
            let input = input(index);
            let right = papers(Call::Guarded, &input);
            let mut wrong = wrong(&input, &right);
            let plain = bits(&input, &papers(Call::LoadMost, &input));
            if total(&plain) != total(&bits(&input, &right)) {
                wrong.push(("the plain table", with_bits(&input, &right, &plain)));
            }
            for (name, outcome) in wrong {
                assert!(judge(&input, &outcome).is_err(), "line {index}: {name}");
                *counts.entry(name).or_insert(0) += 1;
            }
        }
        let all = counts.len() == 8 && counts.values().all(|&count| count > 100);
        assert!(all, "wrong outcomes: {counts:#?}");
    }

    /// What is to be seen of a line.
    fn sorts(input: &Input) -> [(&'static str, bool); 12] {
        let (line, tones) = (line(input), tones(&line(input)));
        let any = |is: &dyn Fn(usize) -> bool| (0..line.tones).any(is);
        let ranged = |number: usize| tones[number].len() > 1;
        let of =
            |number: usize, is: fn(&Tone) -> bool| line.described[number].is_some_and(|t| is(&t));
        let [plain, guarded] = [Call::LoadMost, Call::Guarded].map(|call| papers(call, input));
        let [plain, guarded] = [plain, guarded].map(|outcome| bits(input, &outcome));
        let ends = |number: usize| (tones[number][0], highest(&tones[number]));
        let full = |number: usize| guarded[number] == ends(number).1.limit;
        [
            ("4 tones", line.tones == 4),
            ("not described", line.described.contains(&None)),
            ("silenced, with a range", any(&|n| ranged(n) && line.is_silenced(n))),
            ("a rest and a range", any(&|n| ranged(n) && line.rest(n) > 0)),
            ("single, with a range", any(&|n| ranged(n) && of(n, |t| t.kind == Kind::Single))),
            ("a reading", any(&|n| of(n, |t| matches!(t.given, Given::Read(_))))),
            ("ranges on all tones", !any(&|n| !ranged(n))),
            ("one cost in a range", any(&|n| ranged(n) && ends(n).0.cost == ends(n).1.cost)),
            ("two limits in a range", any(&|n| ends(n).0.limit > ends(n).1.limit)),
            ("ended by the budget", any(&|n| !full(n))),
            ("as many bits, elsewhere", total(&plain) == total(&guarded) && plain != guarded),
            ("fewer bits", total(&plain) > total(&guarded)),
        ]
    }

    #[test]
    fn lines_of_every_sort() {
        let mut counts = BTreeMap::new();
        for index in 0..LINES {
            for (sort, is) in sorts(&input(index)) {
                *counts.entry(sort).or_insert(0) += u32::from(is);
            }
        }
        let all = counts.len() == 12 && counts.values().all(|&count| count > 50);
        assert!(all, "lines: {counts:#?}");
    }
}
