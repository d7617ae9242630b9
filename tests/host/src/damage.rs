//! Sheets that are damaged, each in one way or two.

use crate::floats;
use crate::paper::gap::{Gap, MOST_TENTHS};
use crate::paper::line::{read_bytes, Command, Given, Kind, Tone};
use crate::paper::line::{LARGEST_POWER, LARGEST_SHEET, TONES, TWIN};
use crate::paper::reading::{Reading, LARGEST_COST};
use crate::random::Random;
use crate::sheets::{commands, describes, describes_a_tone, description, fill, high_noise};
use crate::sheets::{largest_rest, named, reading, rest, silence, some_silence, tone};
use crate::sheets::{whole_gap, Commands, Name};

pub const WAYS: usize = 27;

/// A sheet damaged in one of the ways; any byte string, in some of them.
pub fn damaged(random: &mut Random, way: usize) -> Vec<u8> {
    let mut commands = commands(random);
    match way {
        0 => return changed(random, commands.concat()),
        1 => return cut(random, commands.concat()),
        2 => return appended(random, commands.concat()),
        3 => out_of_order(random, &mut commands),
        4 => _ = repeated(random, &mut commands),
        5..=7 => _ = beyond(random, &mut commands),
        8 => _ = not_on_line(random, &mut commands),
        9 => return any_bytes(random),
        10 => return Vec::new(),
        11 => return too_long(random, commands),
        12 => return cut_in_command(random, commands),
        13 | 14 => return gap_at_fault(random, commands),
        15..=17 => _ = reading_at_fault(random, &mut commands),
        18 => another_command(random, &mut commands),
        19 | 20 => _ = rest_at_fault(random, &mut commands),
        21 => return rests_at_budget(random, commands),
        22 => another_width(random, &mut commands),
        23 => another_number(random, &mut commands),
        24 | 25 => _ = high_noise_at_fault(random, &mut commands),
        _ => return twice(random, commands),
    }
    commands.concat()
}

/// N, or 1 where damage made it 0.
fn tones(commands: &Commands) -> usize {
    (usize::from(commands[0][1]) << 8 | usize::from(commands[0][2])).max(1)
}

/// The gap, or one near it where damage took it out of its range.
fn gap(commands: &Commands) -> u64 {
    match commands[1][..] {
        [2, high, low] => u64::from(u16::from_be_bytes([high, low])).max(256),
        [_, tenths, ..] => Gap::Tenths(tenths.min(MOST_TENTHS)).value(),
        _ => 256,
    }
}

/// A place after 01, 02, 03 and not after the end.
fn gap_between(random: &mut Random, commands: &Commands) -> usize {
    3 + random.below(commands.len() - 3)
}

fn changed(random: &mut Random, mut sheet: Vec<u8>) -> Vec<u8> {
    for _ in 0..random.pick(&[1, 1, 1, 2, 5]) {
        let end = random.pick(&[20, 60, LARGEST_SHEET]).min(sheet.len());
        let place = random.below(end);
        let byte = sheet[place];
        let any = random.next() as u8;
        let flipped = byte ^ 1 << random.below(8);
        let near = [byte.wrapping_add(1), byte.wrapping_sub(1)];
        sheet[place] = random.pick(&[any, flipped, near[0], near[1], 0, 255]);
    }
    sheet
}

fn cut(random: &mut Random, mut sheet: Vec<u8>) -> Vec<u8> {
    let from = sheet.len().saturating_sub(random.pick(&[1, 16, 5000]));
    sheet.truncate(from + random.below(sheet.len() - from));
    sheet
}

fn appended(random: &mut Random, mut sheet: Vec<u8>) -> Vec<u8> {
    let count = random.pick(&[1, 1, 2, 15, 200]);
    let any = random.bytes(count);
    match random.below(3) {
        0 => sheet.extend(vec![random.pick(&[0, 4, 6, 7, 8, 9, 10, 11, 12, 0x14, 0x1b]); count]),
        1 => sheet.extend(sheet.clone()),
        _ => sheet.extend(any),
    }
    sheet
}

fn out_of_order(random: &mut Random, commands: &mut Commands) {
    match random.below(6) {
        0 => commands[..3].reverse(),
        1 => commands.swap(random.pick(&[0, 1, 2]), 2),
        2 => {
            commands.remove(random.below(3));
        }
        3 => {
            let early = commands[random.below(3)].clone();
            commands.insert(gap_between(random, commands), early);
        }
        4 => commands.insert(random.below(commands.len()), vec![7]),
        _ => {
            // No command, or one that is not whole.
            let any = random.below(256) as u8;
            let byte =
                random.pick(&[0, 8, 9, 11, 12, 13, 0x11, 0x16, 0x17, 0x18, 0x19, 0x1d, any, any]);
            commands.insert(random.below(commands.len()), vec![byte]);
        }
    }
}

/// A tone described by any command, sometimes with a fault behind the tone.
fn described(random: &mut Random, number: usize, faulty: bool) -> Vec<u8> {
    let number = Name::any(random, number);
    let (noise, cap) = if faulty { random.pick(&[(1, 7), (0, 7), (1, 255)]) } else { (9, 7) };
    let mask = random.pick(&[5, LARGEST_POWER]);
    let float = match noise {
        0 => floats::refused(random),
        _ => f32::from(noise).to_bits(),
    };
    match random.below(4) {
        0 => tone(false, number, noise, 1, cap, mask),
        1 => tone(true, number, noise, 1, cap, mask),
        2 => reading(number, Reading::NoiseAndGain(float, 1.0_f32.to_bits()), cap, mask),
        _ => reading(number, Reading::Ratio(float), cap, mask),
    }
}

/// A tone described twice, by any two commands, the second time often with a fault
/// behind the tone. The place of the second.
fn repeated(random: &mut Random, commands: &mut Commands) -> usize {
    let number = random.below(tones(commands));
    let first = gap_between(random, commands);
    commands.insert(first, described(random, number, false));
    let second = first + 1 + random.below(commands.len() - first - 1);
    commands.insert(second, described(random, number, true));
    second
}

/// An operand at an end of its range or one beyond it. The place of its command.
fn beyond(random: &mut Random, commands: &mut Commands) -> usize {
    let number = random.below(tones(commands));
    let number = Name::any(random, number);
    let mask = random.pick(&[LARGEST_POWER, LARGEST_POWER + 1, 1 << 63, u64::MAX]);
    let new = match random.below(10) {
        0 => {
            let size: u16 = random.pick(&[0, 1, 256, 257, 1023, 1024, 1025, 1025, 65_535]);
            commands[0][1..].copy_from_slice(&size.to_be_bytes());
            return 0;
        }
        1 => {
            commands[1] = gap_command(random);
            return 1;
        }
        2 => {
            commands[2][1..].copy_from_slice(&mask.to_be_bytes());
            return 2;
        }
        3 => tone(random.once_in(2), number, 0, random.pick(&[0, 1]), 0, 0),
        4 => tone(random.once_in(2), number, 65_535, 0, random.pick(&[0, 99]), 0),
        5 => tone(false, number, 1, 1, random.pick(&[14, 15, 16, 255]), mask),
        6 => tone(true, number, 1, 1, random.pick(&[6, 7, 8, 15, 255]), mask),
        7 => tone(random.once_in(2), number, 1, 65_535, 7, mask),
        8 => {
            let read = floats::of_whole(random, mask > LARGEST_POWER, 65_535, 1);
            reading(number, read, random.pick(&[14, 15, 16, 255]), mask)
        }
        _ => {
            let word = random.pick(&[7, 8, 9, 30, 31, 32, 32, 33, 128, 255]);
            silence(word, random.pick(&[0, 1, u32::MAX]))
        }
    };
    put(random, commands, new)
}

/// The commands that describe a tone or give its rest or high noise go.
fn forget(commands: &mut Commands, number: usize) {
    commands.retain(|command| named(command) != Some(number));
}

/// Puts in a command that gives no rest and no high noise. If it describes a tone, the tone's
/// own description goes, so that it is not a repeat, and so do its rest and high noise. Its
/// place.
fn put(random: &mut Random, commands: &mut Commands, new: Vec<u8>) -> usize {
    if let Some(number) = named(&new) {
        forget(commands, number);
    }
    let place = gap_between(random, commands);
    commands.insert(place, new);
    place
}

/// A reading of which a float may be refused, or both, or the cost; or that is just
/// accepted.
fn some_reading(random: &mut Random, gap: u64) -> Reading {
    let (good, bad) = (floats::accepted(random), floats::refused(random));
    let cost = random.pick(&[1, LARGEST_COST, LARGEST_COST, LARGEST_COST + 1]);
    let ratio = random.once_in(2);
    match random.below(8) {
        0 => Reading::NoiseAndGain(bad, good),
        1 => Reading::NoiseAndGain(good, bad),
        2 => Reading::NoiseAndGain(bad, floats::refused(random)),
        3 => Reading::Ratio(bad),
        4 | 5 => floats::near_cost(random, ratio, gap, cost),
        _ => floats::at_edge(random, ratio, gap),
    }
}

/// A reading with a fault in its floats, its cost, its cap or its mask, or in several of
/// them: the first counts. The place of its command.
fn reading_at_fault(random: &mut Random, commands: &mut Commands) -> usize {
    if random.once_in(4) {
        // Gaps at which some float costs just as much as it may, or nearly.
        let gap = random.pick(&[256, 257, 512, 4_096, 65_280, 65_535]);
        commands[1] = whole_gap(gap);
    }
    let number = random.below(tones(commands));
    let number = Name::any(random, number);
    let read = some_reading(random, gap(commands));
    let cap = random.pick(&[0, 7, 15, 15, 16, 255]);
    let mask = random.pick(&[0, 1000, LARGEST_POWER, LARGEST_POWER, LARGEST_POWER + 1, u64::MAX]);
    put(random, commands, reading(number, read, cap, mask))
}

/// A tone of any command in the place of its own. Its number, and what was put.
fn another_tone(random: &mut Random, commands: &mut Commands) -> (usize, Tone) {
    let number = random.below(tones(commands));
    let (noise, gain) = (random.pick(&[1, 9, 300, 65_535]), 1);
    let (whole, ratio) = (Given::Whole { noise, gain }, random.once_in(2));
    let (kind, given) = match random.below(4) {
        0 => (Kind::Pair, whole),
        1 => (Kind::Single, whole),
        _ => (Kind::Pair, Given::Read(floats::of_whole(random, ratio, noise, gain))),
    };
    let tone = Tone { kind, given, cap: 7, mask: LARGEST_POWER };
    let cost = tone.cost(gap(commands));
    let mask = random.pick(&[0, 5, cost - 1, cost, LARGEST_POWER, LARGEST_POWER]);
    let tone = Tone { mask, ..tone };
    let name = Name::any(random, number);
    put(random, commands, description(name, tone));
    (number, tone)
}

/// A place from some command on, and not after the end.
fn place_from(random: &mut Random, commands: &Commands, first: usize) -> usize {
    first + random.below(commands.len() - first)
}

/// The place after a tone's command.
fn after_tone(commands: &Commands, number: usize) -> usize {
    let of_tone = |command: &Vec<u8>| describes(command, number);
    1 + commands.iter().position(of_tone).expect("it is described")
}

fn silence_tone(random: &mut Random, commands: &mut Commands, number: usize) {
    let place = gap_between(random, commands);
    commands.insert(place, silence((number / 32) as u8, 1 << (number % 32)));
}

/// The place for a command that comes after its tone's description: sound, or before that, or
/// where the tone is not described at all, or after another like it, which is put in.
fn place_after_tone(
    random: &mut Random,
    commands: &mut Commands,
    number: usize,
    another: Vec<u8>,
) -> usize {
    let next = after_tone(commands, number);
    match random.below(6) {
        0 => 3 + random.below(next - 3),
        1 => {
            forget(commands, number);
            gap_between(random, commands)
        }
        2 | 3 => {
            let first = place_from(random, commands, next);
            commands.insert(first, another);
            place_from(random, commands, first + 1)
        }
        _ => place_from(random, commands, next),
    }
}

/// A rest at an end of what its tone can have, or beyond it; or the tone is not described
/// where it stands, or has had one. Some tones are silenced. The place of its command.
fn rest_at_fault(random: &mut Random, commands: &mut Commands) -> usize {
    let (number, tone) = another_tone(random, commands);
    if random.once_in(3) {
        silence_tone(random, commands, number);
    }
    let (cost, most) = (tone.cost(gap(commands)), largest_rest(&tone, gap(commands)));
    let beyond = random.pick(&[cost, cost + 1, tone.mask + 1, 1 << 24, u32::MAX.into()]);
    let value = random.pick(&[0, most, most + 1, cost, beyond]).min(u32::MAX.into()) as u32;
    let another = rest(Name::any(random, number), random.pick(&[0, most as u32]));
    let place = place_after_tone(random, commands, number, another);
    commands.insert(place, rest(Name::any(random, number), value));
    place
}

/// A high noise at an end of what its tone can have, or below it; or the tone is a reading, is
/// not described where it stands, or has had one. Some tones are silenced. The place of its
/// command.
fn high_noise_at_fault(random: &mut Random, commands: &mut Commands) -> usize {
    let (number, tone) = another_tone(random, commands);
    if random.once_in(4) {
        silence_tone(random, commands, number);
    }
    let noise = match tone.given {
        Given::Whole { noise, .. } => noise,
        Given::Read(_) => random.pick(&[1, 300]),
    };
    let more = noise.saturating_add(1);
    let value = random.pick(&[0, 0, noise - 1, noise - 1, noise, more, u16::MAX]);
    let another = high_noise(Name::any(random, number), random.pick(&[noise, more, u16::MAX]));
    let place = place_after_tone(random, commands, number, another);
    commands.insert(place, high_noise(Name::any(random, number), value));
    place
}

/// Rests that add up to about the budget, by as many tones as have them and one more,
/// which may be silenced: to as much, to more, or to more with those of silenced tones.
fn budget_of_rests(random: &mut Random, commands: &mut Commands) {
    let (number, tone) = another_tone(random, commands);
    let most = largest_rest(&tone, gap(commands));
    let next = after_tone(commands, number);
    let place = place_from(random, commands, next);
    let name = Name::any(random, number);
    commands.insert(place, rest(name, random.between(most.min(1), most) as u32));
    if random.once_in(3) {
        silence_tone(random, commands, number);
    }
    // With another fault in it there is nothing to add up.
    let Ok(line) = read_bytes(&commands.concat()) else { return };
    let sent = line.sum_of_rests();
    let given: u64 = line.rests.iter().map(|rest| u64::from(*rest)).sum();
    let one_less = sent.saturating_sub(1);
    let any = random.between(0, given);
    let budget = random.pick(&[sent, one_less, one_less, given.saturating_sub(1), 0, any]);
    commands[2][1..].copy_from_slice(&budget.to_be_bytes());
}

/// Rests at about the budget, sometimes with a fault that comes before theirs.
fn rests_at_budget(random: &mut Random, mut commands: Commands) -> Vec<u8> {
    budget_of_rests(random, &mut commands);
    match random.below(8) {
        0 => appended(random, commands.concat()),
        1 => cut(random, commands.concat()),
        2 => {
            not_on_line(random, &mut commands);
            commands.concat()
        }
        _ => commands.concat(),
    }
}

/// The place of a command that names a tone, or describes one. Where there is none, a tone is
/// described twice.
fn of_a_tone(random: &mut Random, commands: &mut Commands, is: fn(&[u8]) -> bool) -> usize {
    if !commands.iter().any(|command| is(command)) {
        repeated(random, commands);
    }
    let places: Vec<usize> = (0..commands.len()).filter(|&i| is(&commands[i])).collect();
    random.pick(&places)
}

/// A tone's command has the byte of another of its width that describes a tone.
fn another_command(random: &mut Random, commands: &mut Commands) {
    let place = of_a_tone(random, commands, describes_a_tone);
    let byte = &mut commands[place][0];
    let twin = *byte & TWIN;
    let others: Vec<u8> =
        [4, 5, 9, 10].into_iter().filter(|&short| short | twin != *byte).collect();
    *byte = random.pick(&others) | twin;
}

/// A command that names a tone has the byte of its twin, or a twin that of its short command:
/// all its operands are read one byte off.
fn another_width(random: &mut Random, commands: &mut Commands) {
    let place = of_a_tone(random, commands, |command| named(command).is_some());
    commands[place][0] ^= TWIN;
}

/// A command that names a tone has another byte in its number: often the first of two.
fn another_number(random: &mut Random, commands: &mut Commands) {
    if random.once_in(2) {
        repeated(random, commands);
    }
    let place = of_a_tone(random, commands, |command| named(command).is_some());
    let command = &mut commands[place];
    let last = usize::from(command[0] >= TWIN);
    let byte = &mut command[1 + if random.once_in(4) { last } else { 0 }];
    let any = random.next() as u8;
    let flipped = *byte ^ 1 << random.below(8);
    *byte = random.pick(&[0, 1, 2, 3, 4, 255, any, flipped]);
}

/// Either command of the gap, at an end of its range or beyond it, or with any operand.
fn gap_command(random: &mut Random) -> Vec<u8> {
    let any = random.next();
    match random.once_in(2) {
        true => whole_gap(random.pick(&[0, 1, 255, 256, 65_535, any as u16])),
        false => vec![8, random.pick(&[0, 239, 240, 241, 255, any as u8])],
    }
}

/// The command of the gap is another, comes twice, stands elsewhere, has the byte
/// of the one for the other, or the sheet ends inside it.
fn gap_at_fault(random: &mut Random, mut commands: Commands) -> Vec<u8> {
    let new = gap_command(random);
    match random.below(6) {
        0 => commands[1] = new,
        1 => commands.insert(random.pick(&[1, 2]), new),
        2 => commands.insert(random.below(commands.len() + 1), new),
        3 => {
            let gap = commands.remove(1);
            commands.insert(random.below(commands.len() + 1), gap);
        }
        4 => commands[1][0] = if commands[1][0] == 2 { 8 } else { 2 },
        _ => return [&commands[0], &new[..random.below(new.len())]].concat(),
    }
    commands.concat()
}

/// A tone or a map that names a tone from N on. The place of its command.
fn not_on_line(random: &mut Random, commands: &mut Commands) -> usize {
    let first = tones(commands).min(65_535);
    let far = random.pick(&[255, 256, TONES - 1, TONES, 65_535]);
    let number = random.pick(&[first, first, first.max(far)]);
    let map = 1 << (number % 32) | random.pick(&[0, 1, u32::MAX]);
    let new = match random.below(6) {
        0 => rest(Name::any(random, number), random.pick(&[0, u32::MAX])),
        1 => high_noise(Name::any(random, number), random.pick(&[0, u16::MAX])),
        4 | 5 if number < TONES => silence((number / 32) as u8, map),
        _ => described(random, number, true),
    };
    let place = gap_between(random, commands);
    commands.insert(place, new);
    place
}

fn any_bytes(random: &mut Random) -> Vec<u8> {
    let long = [LARGEST_SHEET, LARGEST_SHEET + 1];
    let length = random.pick(&[1, 2, 3, 15, 16, 40, 300, 5000, long[0], long[1]]);
    let mut sheet = random.bytes(length);
    if random.once_in(2) {
        sheet[0] = 1;
    } else if random.once_in(2) {
        sheet.iter_mut().for_each(|byte| *byte %= 0x1d);
    }
    sheet
}

/// Over 32,768 bytes, or just at them: otherwise valid, or damaged besides.
fn too_long(random: &mut Random, mut commands: Commands) -> Vec<u8> {
    let tones = tones(&commands);
    let bytes = LARGEST_SHEET + random.pick(&[0, 1, 1, 2, 600]);
    fill(random, &mut commands, tones, bytes);
    let sheet = commands.concat();
    match random.below(5) {
        0 => appended(random, sheet),
        1 => changed(random, sheet),
        2 => [commands.concat(), random.bytes(5000)].concat(),
        _ => sheet,
    }
}

/// The sheet ends inside a command, whose operands so far may be at fault.
fn cut_in_command(random: &mut Random, mut commands: Commands) -> Vec<u8> {
    let place = match random.below(10) {
        0 | 1 => beyond(random, &mut commands),
        2 => repeated(random, &mut commands),
        3 => not_on_line(random, &mut commands),
        4 | 5 => reading_at_fault(random, &mut commands),
        6 => rest_at_fault(random, &mut commands),
        7 => high_noise_at_fault(random, &mut commands),
        8 => random.below(3),
        _ => random.below(commands.len()),
    };
    let last = &commands[place];
    let missing = 1 + random.below(last.len());
    let left = match Command::of(last[0]) {
        // Between the bytes of its tone.
        Some(Command { is_twin: true, .. }) if random.once_in(4) => 2,
        _ => last.len() - random.pick(&[1, missing]),
    };
    [&commands[..place].concat(), &last[..left]].concat()
}

/// Two faults: the first that the reading meets counts.
fn twice(random: &mut Random, mut commands: Commands) -> Vec<u8> {
    for _ in 0..2 {
        let place = gap_between(random, &commands);
        match random.below(10) {
            0 => commands.insert(place, vec![random.pick(&[0, 1, 8])]),
            1 => {
                let tones = random.pick(&[256, TONES]);
                commands.insert(place, some_silence(random, tones));
            }
            2 => commands[1] = gap_command(random),
            3 => _ = repeated(random, &mut commands),
            4 => _ = not_on_line(random, &mut commands),
            5 => _ = reading_at_fault(random, &mut commands),
            6 => _ = rest_at_fault(random, &mut commands),
            7 => budget_of_rests(random, &mut commands),
            8 => _ = high_noise_at_fault(random, &mut commands),
            _ => _ = beyond(random, &mut commands),
        }
    }
    let sheet = commands.concat();
    match random.below(3) {
        0 => cut(random, sheet),
        1 => appended(random, sheet),
        _ => sheet,
    }
}

#[cfg(test)]
mod tests {
    use super::*;
    use crate::paper::line::{read, Line};
    use crate::paper::Refusal;
    use std::collections::BTreeMap;

    /// How many sheets are looked at.
    const SHEETS: u64 = 32_000;

    fn refuse(number: u32, place: usize) -> Result<Line, Refusal> {
        Err(Refusal { number, place })
    }

    fn command_at(sheet: &[u8], at: usize) -> Command {
        Command::of(sheet[at]).expect("a command")
    }

    /// The place of the command that a byte belongs to; the commands before it are sound.
    fn command_of(sheet: &[u8], place: usize) -> usize {
        let mut at = 0;
        loop {
            let next = at + command_at(sheet, at).length();
            if place < next {
                return at;
            }
            at = next;
        }
    }

    /// A refusal and its byte of a short command, in which a twin's other operands stand one
    /// earlier; and, of a twin, that it is one.
    fn shown_at(refusal: Refusal, at: usize, command: Command) -> (String, &'static str) {
        let byte = refusal.place - at;
        let byte = if byte > 1 { byte + 1 - command.tone_bytes() } else { byte };
        let twin = if command.is_twin { ", twin" } else { "" };
        (format!("{} at byte {byte} of {:02x}", refusal.number, command.short), twin)
    }

    /// What a refused reading shows: the refusal, and what else is at fault behind it.
    fn shown(sheet: &[u8], refusal: Refusal) -> Option<String> {
        let at = command_of(sheet, refusal.place);
        let command = command_at(sheet, at);
        if !matches!(command.short, 9 | 10) {
            return None;
        }
        let bytes = &sheet[at + command.tone_bytes() - 1..at + command.length()];
        let length = bytes.len();
        let float = |at: usize| f32::from_be_bytes(bytes[at..at + 4].try_into().expect("4 bytes"));
        let bad = |float: f32| !(float.is_finite() && float > 0.0);
        let number = refusal.number;
        let (name, twin) = shown_at(refusal, at, command);
        let first = refusal.place == at + 1 + command.tone_bytes();
        let both = number == 12 && first && length == 19 && bad(float(6));
        let cap = number > 11 && bytes[length - 9] > 15;
        let mask = number > 11 && bytes[length - 8..] > LARGEST_POWER.to_be_bytes()[..];
        let infinite = number == 13 && length == 19 && (float(2) / float(6)).is_infinite();
        let more = [(both, ", gain"), (cap, ", cap"), (mask, ", mask"), (infinite, ", infinite")];
        let more = more.into_iter().filter(|(is, _)| *is).map(|(_, more)| more);
        Some(more.fold(name, |name, more| name + more) + twin)
    }

    /// Each of these, in a short command and in a twin, has been shown often enough.
    fn assert_shown(counts: BTreeMap<String, u32>, due: &[&str]) {
        for due in due.iter().flat_map(|due| [due.to_string(), format!("{due}, twin")]) {
            assert!(counts.get(&due).is_some_and(|&count| count > 3), "{due}: {counts:#?}");
        }
    }

    /// What damaged readings should show: each refusal alone, and with faults behind it.
    const FAULTS: [&str; 24] = [
        "12 at byte 2 of 09",
        "12 at byte 2 of 09, gain",
        "12 at byte 2 of 09, gain, cap, mask",
        "12 at byte 6 of 09",
        "12 at byte 6 of 09, cap",
        "12 at byte 2 of 0a",
        "12 at byte 2 of 0a, mask",
        "13 at byte 2 of 09",
        "13 at byte 2 of 09, cap",
        "13 at byte 2 of 09, mask",
        "13 at byte 2 of 09, infinite",
        "13 at byte 2 of 09, cap, infinite",
        "13 at byte 2 of 09, mask, infinite",
        "13 at byte 2 of 0a",
        "13 at byte 2 of 0a, cap",
        "13 at byte 2 of 0a, mask",
        "4 at byte 10 of 09",
        "4 at byte 11 of 09",
        "4 at byte 6 of 0a",
        "4 at byte 7 of 0a",
        "5 at byte 1 of 09",
        "5 at byte 1 of 0a",
        "6 at byte 1 of 09",
        "6 at byte 1 of 0a",
    ];

    /// Readings are refused in every way.
    #[test]
    fn every_fault_of_a_reading() {
        let mut counts = BTreeMap::new();
        for index in 0..SHEETS {
            let sheet = damaged(&mut Random::new(1, index), index as usize % WAYS);
            match read(&sheet) {
                Err(refusal) if matches!(refusal.number, 4..=6 | 12 | 13) => {
                    let shown = shown(&sheet, refusal);
                    *counts.entry(shown.unwrap_or_default()).or_insert(0) += 1;
                }
                _ => {}
            }
        }
        assert_shown(counts, &FAULTS);
    }

    /// What a refused rest shows: the refusal, and of 14 and 15 why.
    fn shown_of_rest(sheet: &[u8], refusal: Refusal) -> Option<String> {
        let at = command_of(sheet, refusal.place);
        let command = command_at(sheet, at);
        if command.short != 11 {
            return None;
        }
        let number = named(&sheet[at..]).expect("a tone");
        let end = at + command.length();
        let rest = u32::from_be_bytes(sheet[end - 4..end].try_into().expect("4 bytes"));
        let line = read_bytes(&[&sheet[..at], &[7]].concat()).expect("it is sound up to there");
        let (name, twin) = shown_at(refusal, at, command);
        let Some(Some(tone)) = line.described.get(number) else { return Some(name + twin) };
        let cost = tone.cost(line.gap.value());
        let more = [
            (refusal.number == 14 && line.rests[number] == 0, ", after one of 0"),
            (refusal.number == 14 && line.rests[number] != 0, ", after another"),
            (u64::from(rest) == cost, ", as large as the cost"),
            (u64::from(rest) > cost, ", above the cost"),
            (u64::from(rest) > tone.mask, ", above the mask"),
            (line.is_silenced(number), ", silenced"),
        ];
        let more = more.into_iter().filter(|(is, _)| *is).map(|(_, more)| more);
        Some(more.fold(name, |name, more| name + more) + twin)
    }

    const FAULTS_OF_RESTS: [&str; 14] = [
        "5 at byte 1 of 0b",
        "14 at byte 1 of 0b",
        "14 at byte 1 of 0b, after one of 0",
        "14 at byte 1 of 0b, after one of 0, as large as the cost",
        "14 at byte 1 of 0b, after one of 0, above the mask",
        "14 at byte 1 of 0b, after one of 0, silenced",
        "14 at byte 1 of 0b, after another",
        "14 at byte 1 of 0b, after another, as large as the cost",
        "15 at byte 2 of 0b, as large as the cost",
        "15 at byte 2 of 0b, as large as the cost, silenced",
        "15 at byte 2 of 0b, above the cost",
        "15 at byte 2 of 0b, above the mask",
        "15 at byte 2 of 0b, above the mask, silenced",
        "15 at byte 2 of 0b, above the cost, above the mask",
    ];

    /// Rests are refused in every way.
    #[test]
    fn every_fault_of_a_rest() {
        let mut counts = BTreeMap::new();
        for index in 0..SHEETS {
            let sheet = damaged(&mut Random::new(1, index), index as usize % WAYS);
            match read_bytes(&sheet) {
                Err(refusal) if matches!(refusal.number, 5 | 14 | 15) => {
                    let shown = shown_of_rest(&sheet, refusal);
                    *counts.entry(shown.unwrap_or_default()).or_insert(0) += 1;
                }
                _ => {}
            }
        }
        assert_shown(counts, &FAULTS_OF_RESTS);
    }

    /// The high noise that a sheet, sound up to a place, gives a tone before it, if it does.
    fn high_noise_before(sheet: &[u8], at: usize, number: usize) -> Option<u16> {
        let (mut found, mut place) = (None, 0);
        while place < at {
            let end = place + command_at(sheet, place).length();
            if command_at(sheet, place).short == 12 && named(&sheet[place..]) == Some(number) {
                found = Some(u16::from_be_bytes([sheet[end - 2], sheet[end - 1]]));
            }
            place = end;
        }
        found
    }

    /// What a refused high noise shows: the refusal, and of 14 and 4 why.
    fn shown_of_high_noise(sheet: &[u8], refusal: Refusal) -> Option<String> {
        let at = command_of(sheet, refusal.place);
        let command = command_at(sheet, at);
        if command.short != 12 {
            return None;
        }
        let number = named(&sheet[at..]).expect("a tone");
        let end = at + command.length();
        let high = u16::from_be_bytes([sheet[end - 2], sheet[end - 1]]);
        let line = read_bytes(&[&sheet[..at], &[7]].concat()).expect("it is sound up to there");
        let (name, twin) = shown_at(refusal, at, command);
        let noise = match line.described.get(number) {
            Some(Some(Tone { given: Given::Whole { noise, .. }, .. })) => *noise,
            _ => 0,
        };
        let first = high_noise_before(sheet, at, number);
        let more = [
            (first == Some(noise), ", after one of the noise"),
            (first.is_some_and(|first| first > noise), ", after another"),
            (noise > 0 && high == noise, ", of the noise"),
            (noise > 0 && high < noise, ", below the noise"),
            (noise > 0 && high + 1 == noise, " by 1"),
            (noise == 0 && high == 0, ", of 0"),
            (number < line.tones && line.is_silenced(number), ", silenced"),
        ];
        let more = more.into_iter().filter(|(is, _)| *is).map(|(_, more)| more);
        Some(more.fold(name, |name, more| name + more) + twin)
    }

    const FAULTS_OF_HIGH_NOISES: [&str; 17] = [
        "5 at byte 1 of 0c",
        "5 at byte 1 of 0c, of 0",
        "14 at byte 1 of 0c",
        "14 at byte 1 of 0c, of 0",
        "14 at byte 1 of 0c, after one of the noise",
        "14 at byte 1 of 0c, after one of the noise, of the noise",
        "14 at byte 1 of 0c, after one of the noise, below the noise by 1",
        "14 at byte 1 of 0c, after another",
        "14 at byte 1 of 0c, after another, of the noise",
        "14 at byte 1 of 0c, after another, below the noise",
        "14 at byte 1 of 0c, after another, below the noise by 1",
        "4 at byte 1 of 0c",
        "4 at byte 1 of 0c, of 0",
        "4 at byte 1 of 0c, silenced",
        "4 at byte 2 of 0c, below the noise",
        "4 at byte 2 of 0c, below the noise by 1",
        "4 at byte 2 of 0c, below the noise by 1, silenced",
    ];

    /// High noises are refused in every way.
    #[test]
    fn every_fault_of_a_high_noise() {
        let mut counts = BTreeMap::new();
        for index in 0..SHEETS {
            let sheet = damaged(&mut Random::new(1, index), index as usize % WAYS);
            match read_bytes(&sheet) {
                Err(refusal) if matches!(refusal.number, 4 | 5 | 14) => {
                    let shown = shown_of_high_noise(&sheet, refusal);
                    *counts.entry(shown.unwrap_or_default()).or_insert(0) += 1;
                }
                _ => {}
            }
        }
        assert_shown(counts, &FAULTS_OF_HIGH_NOISES);
    }

    /// Whether a sheet that is accepted has more rests, up to some command, than budget.
    fn saved_by_a_silence(sheet: &[u8]) -> bool {
        let mut at = 0;
        while sheet[at] != 7 {
            at += command_at(sheet, at).length();
            if read(&[&sheet[..at], &[7]].concat()) == refuse(16, 0) {
                return true;
            }
        }
        false
    }

    /// Rests are at the budget, one over it, over it until a silence comes, over it with
    /// those of silenced tones; and over it in sheets that bytes follow.
    #[test]
    fn every_budget_of_rests() {
        let mut counts = [0; 5];
        for index in 0..SHEETS {
            let sheet = damaged(&mut Random::new(1, index), index as usize % WAYS);
            match read_bytes(&sheet) {
                Ok(line) => {
                    let given = line.rests.iter().map(|rest| u64::from(*rest));
                    let (given, sent) = (given.sum::<u64>(), line.sum_of_rests());
                    counts[0] += u32::from(sent > 0 && sent == line.budget);
                    counts[1] += u32::from(sent == line.budget + 1);
                    let saved = sent <= line.budget && given > line.budget;
                    counts[2] += u32::from(saved && saved_by_a_silence(&sheet));
                    counts[3] += u32::from(saved);
                }
                Err(Refusal { number: 7, place }) => {
                    counts[4] += u32::from(read(&sheet[..place]) == refuse(16, 0));
                }
                _ => {}
            }
        }
        assert!(counts.iter().all(|&count| count > 20), "{counts:?}");
    }

    /// Sheets end before every byte of a reading, of a rest and of a high noise.
    #[test]
    fn cut_inside_commands() {
        let mut lengths = BTreeMap::new();
        for index in 0..SHEETS {
            let mut random = Random::new(1, index);
            let commands = commands(&mut random);
            let sheet = cut_in_command(&mut random, commands);
            if sheet.is_empty() || read(&sheet) != refuse(2, sheet.len()) {
                continue;
            }
            let at = command_of(&sheet, sheet.len() - 1);
            *lengths.entry((sheet[at], sheet.len() - at)).or_insert(0) += 1;
        }
        let all = |byte: u8| (1..command_at(&[byte], 0).length()).map(move |length| (byte, length));
        for due in [9, 10, 11, 12, 0x19, 0x1a, 0x1b, 0x1c].into_iter().flat_map(all) {
            assert!(lengths.get(&due).is_some_and(|&count| count > 3), "{due:?}: {lengths:?}");
        }
    }
}
