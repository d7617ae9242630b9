//! The independent loader on a thousand tones: document 02's request W8, by hand.

use super::line::{read, Command, SetBy, LARGEST_SHEET, TONES};
use super::run::Running;
use super::sample::{and, bits, reading, refusal, rest, sample, value};
use super::*;

/// The twin of a command that names a tone below 256, for a tone.
pub fn twin(short: &[u8], tone: u16) -> Vec<u8> {
    [&[short[0] + 0x10][..], &tone.to_be_bytes(), &short[2..]].concat()
}

/// The twin that says the same.
pub fn same(short: &[u8]) -> Vec<u8> {
    twin(short, short[1].into())
}

/// Command 04 with a mask of 100, for a tone below 256.
pub fn pair(tone: u8, noise: u8, cap: u8) -> Vec<u8> {
    vec![4, tone, 0, noise, 0, 1, cap, 0, 0, 0, 0, 0, 0, 0, 100]
}

/// A pair tone by the shortest command.
fn any_pair(tone: u16, noise: u8, cap: u8) -> Vec<u8> {
    match u8::try_from(tone) {
        Ok(tone) => pair(tone, noise, cap),
        Err(_) => twin(&pair(0, noise, cap), tone),
    }
}

/// A sheet of gap 256.
pub fn sheet(tones: u16, budget: u64, commands: &[Vec<u8>]) -> Vec<u8> {
    let [high, low] = tones.to_be_bytes();
    let first = [&[1, high, low, 2, 1, 0, 3][..], &budget.to_be_bytes()].concat();
    [&first[..], &commands.concat(), &[7]].concat()
}

pub fn tidied(sheet: &[u8]) -> Vec<u8> {
    let (mut written, mut answer) = (vec![238; sheet.len() + 3], [0; 24]);
    assert_eq!(tidy(sheet, &mut written, &mut answer), 0);
    let length = value(&answer) as usize;
    assert!(written[length..].iter().all(|byte| *byte == 238));
    let mut short = vec![238; length - 1];
    assert_eq!(tidy(sheet, &mut short, &mut answer), 8 << 32);
    written.truncate(length);
    written
}

/// The bytes of which a command begins, and whether it has a twin.
#[test]
fn commands_and_twins() {
    for byte in 0..=255 {
        let due = match byte {
            1..=12 => Some((byte, false)),
            0x14 => Some((4, true)),
            0x15 => Some((5, true)),
            0x19 => Some((9, true)),
            0x1a => Some((10, true)),
            0x1b => Some((11, true)),
            0x1c => Some((12, true)),
            _ => None,
        };
        let command = Command::of(byte);
        assert_eq!(command.map(|command| (command.short, command.is_twin)), due, "{byte:02x}");
        assert!(command.is_none_or(|command| command.byte() == byte));
    }
    let length = |byte| Command::of(byte).unwrap().length();
    assert_eq!([0x14, 0x15, 0x19, 0x1a, 0x1b, 0x1c].map(length), [16, 16, 20, 16, 7, 5]);
}

/// The sample with any of its tones by twins, and rests by either command, is one line with
/// one tidy form.
#[test]
fn twins_of_low_tones() {
    let short = and(39, &[rest(0, 2), rest(1, 1)]);
    let due = tidied(&short);
    let commands = [&short[15..30], &short[30..45], &short[45..60], &rest(0, 2), &rest(1, 1)];
    for which in 0..1 << commands.len() {
        let either = |place: usize| match which >> place & 1 {
            1 => same(commands[place]),
            _ => commands[place].to_vec(),
        };
        let all: Vec<Vec<u8>> = (0..commands.len()).map(either).collect();
        let sheet = sheet(3, 39, &all);
        assert_eq!(read(&sheet), read(&short));
        assert_eq!(printed(&sheet), printed(&short));
        assert_eq!(tidied(&sheet), due);
    }
    let readings = [reading(1, &bits(&[6.0, 2.0]), 15, 100), reading(2, &bits(&[3.0]), 9, 50)];
    let twins = [same(&readings[1]), same(&readings[0])];
    assert_eq!(tidied(&sheet(3, 39, &twins)), sheet(3, 39, &readings));
}

/// "Tidying uses the short command for tones up to 255", for a tone as for its rest.
#[test]
fn tidying_at_255() {
    let single = [&[5][..], &pair(255, 3, 7)[1..]].concat();
    let both = reading(255, &[0x4049_0fdb, 0x3f80_0001], 15, 100);
    let ratio = reading(255, &[0x3eaa_aaab], 15, 100);
    for tone in [pair(255, 3, 7), single, both, ratio] {
        let rest = rest(255, 0);
        let untidy = [
            twin(&tone, 1023),
            twin(&tone, 256),
            same(&tone),
            twin(&rest, 256),
            same(&rest),
            twin(&rest, 1023),
        ];
        let tones = [tone.clone(), twin(&tone, 256), twin(&tone, 1023)];
        assert_eq!(tidied(&sheet(1024, 9, &untidy)), sheet(1024, 9, &tones));
        assert_eq!(tidied(&sheet(1024, 9, &tones)), sheet(1024, 9, &tones));
    }
    let (tone, rest) = (pair(255, 3, 7), rest(255, 2));
    let untidy = [twin(&tone, 256), same(&tone), same(&rest), twin(&rest, 256)];
    let tidy = [tone.clone(), rest.clone(), twin(&tone, 256), twin(&rest, 256)];
    assert_eq!(tidied(&sheet(257, 9, &untidy)), sheet(257, 9, &tidy));
    assert_eq!(sheet(257, 9, &tidy).len(), 16 + 15 + 6 + 16 + 7);
}

/// N is up to 1,024, and a silence word up to 31.
#[test]
fn sizes_and_words() {
    let silence = |word: u8, map: u32| [&[6, word][..], &map.to_be_bytes()].concat();
    let top = 1 << 31;
    for (tones, word, map, due) in [
        (1024, 0, 0, (0, 0)),
        (1025, 0, 0, (4, 1)),
        (0, 0, 0, (4, 1)),
        (65_535, 0, 0, (4, 1)),
        (1024, 31, u32::MAX, (0, 0)),
        (1024, 32, 0, (4, 16)),
        (1024, 255, u32::MAX, (4, 16)),
        (1023, 31, top, (5, 17)),
        (1023, 31, top - 1, (0, 0)),
        (993, 31, 1, (0, 0)),
        (992, 31, 1, (5, 17)),
        (257, 8, 1, (0, 0)),
        (257, 8, 2, (5, 17)),
        (256, 8, 1, (5, 17)),
        (1, 31, 0, (0, 0)),
    ] {
        let sheet = sheet(tones, 0, &[silence(word, map)]);
        assert_eq!(refusal(&sheet), due, "{tones} tones, word {word}, map {map:x}");
    }
    for word in 8..32 {
        let tones = 32 * u16::from(word);
        for (tones, due) in [(tones, (5, 17)), (tones + 1, (0, 0))] {
            assert_eq!(refusal(&sheet(tones, 0, &[silence(word, 1)])), due);
        }
    }
    let words = [silence(31, top), silence(8, 1), silence(31, 1), silence(9, 0)];
    let tidy = [silence(8, 1), silence(31, top | 1)];
    assert_eq!(tidied(&sheet(1024, 0, &words)), sheet(1024, 0, &tidy));
    let line = read(&sheet(1024, 0, &words)).unwrap();
    let silenced: Vec<usize> = (0..1024).filter(|&tone| line.is_silenced(tone)).collect();
    assert_eq!((silenced, line.count_silenced()), (vec![256, 992, 1023], 3));
}

/// 2 comes before any operand is judged, also between the two bytes of a tone; a twin stands
/// where its short command does.
#[test]
fn places_of_twins() {
    let sample = sample(39);
    let shorts =
        [pair(9, 0, 99), reading(9, &[0, 0], 99, 0), reading(9, &[0], 99, 0), rest(9, u32::MAX)];
    for short in shorts {
        let twin = twin(&short, 0xffff);
        for length in 1..twin.len() {
            let cut = [&sample[..15], &twin[..length]].concat();
            assert_eq!(refusal(&cut), (2, 15 + length));
        }
        for place in [0, 3, 6] {
            let early = [&sample[..place], &twin, &sample[place..]].concat();
            assert_eq!(refusal(&early), (3, place));
        }
        assert_eq!(refusal(&[&sample[..60], &twin, &[7]].concat()), (5, 61));
        assert_eq!(refusal(&[&sample[..], &twin].concat()), (7, 61));
    }
    for byte in [0x0d, 0x10, 0x11, 0x12, 0x13, 0x16, 0x17, 0x18, 0x1d, 0x24, 0x2c] {
        assert_eq!(refusal(&[&sample[..15], &[byte], &sample[16..]].concat()), (3, 15));
    }
}

/// 5, 6 and 14 at the first byte of the tone, before what stands behind it; which command
/// described a tone or gave its rest does not count.
#[test]
fn tones_of_twins_refused() {
    let bad = [pair(1, 0, 99), reading(1, &[0, 0], 99, 0), reading(1, &[0], 99, 0)];
    for short in bad {
        for (tone, due) in [(2, (6, 61)), (3, (5, 61)), (256, (5, 61)), (0x0200, (5, 61))] {
            assert_eq!(refusal(&and(39, &[twin(&short, tone)])), due);
        }
        let first = pair(200, 3, 7);
        for first in [first.clone(), same(&first)] {
            for second in [twin(&short, 200), [&[short[0], 200], &short[2..]].concat()] {
                let due = (6, 16 + first.len());
                assert_eq!(refusal(&sheet(300, 0, &[first.clone(), second])), due);
            }
        }
        let twice = [any_pair(299, 3, 7), twin(&short, 299)];
        assert_eq!(refusal(&sheet(300, 0, &twice)), (6, 32));
        assert_eq!(refusal(&sheet(300, 0, &[twin(&short, 300)])), (5, 16));
    }
    let any = u32::MAX;
    for (commands, due) in [
        (vec![twin(&rest(0, any), 3)], (5, 61)),
        (vec![twin(&rest(0, 2), 256)], (5, 61)),
        (vec![rest(0, 2), same(&rest(0, any))], (14, 67)),
        (vec![same(&rest(0, 2)), rest(0, any)], (14, 68)),
        (vec![same(&rest(0, 0)), same(&rest(0, 0))], (14, 68)),
        (vec![same(&rest(0, 0)), rest(1, 1), rest(0, 0)], (14, 74)),
        (vec![same(&rest(0, 3))], (15, 63)),
        (vec![same(&rest(0, 2)), same(&rest(1, any))], (15, 70)),
    ] {
        assert_eq!(refusal(&and(39, &commands)), due, "{commands:02x?}");
    }
    assert_eq!(refusal(&sheet(300, 0, &[twin(&rest(0, 0), 299)])), (14, 16));
}

/// The other operands are judged as the short command's, each a byte further on.
#[test]
fn operands_of_twins_refused() {
    const ONE: u32 = 0x3f80_0000;
    const LARGEST: u32 = 0x7f7f_ffff;
    let whole = |command: u8, noise: u8, gain: u8, cap: u8, mask: u8| {
        vec![command, 0, 0, noise, 0, gain, cap, mask, 0, 0, 0, 0, 0, 0, 0]
    };
    for (short, due) in [
        (whole(4, 0, 0, 16, 1), (4, 18)),
        (whole(4, 1, 0, 16, 1), (4, 20)),
        (whole(4, 1, 1, 16, 1), (4, 22)),
        (whole(5, 1, 1, 8, 1), (4, 22)),
        (whole(4, 1, 1, 15, 1), (4, 23)),
        (whole(5, 1, 1, 7, 0), (0, 0)),
        (reading(0, &[0, 0], 16, 1 << 48), (12, 18)),
        (reading(0, &[ONE, 0], 16, 1 << 48), (12, 22)),
        (reading(0, &[LARGEST, 1], 16, 1 << 48), (13, 18)),
        (reading(0, &[1, LARGEST], 16, 1 << 48), (4, 26)),
        (reading(0, &[1, LARGEST], 15, 1 << 48), (4, 27)),
        (reading(0, &[0], 16, 1 << 48), (12, 18)),
        (reading(0, &[LARGEST], 16, 1 << 48), (13, 18)),
        (reading(0, &[ONE], 16, 1 << 48), (4, 22)),
        (reading(0, &[ONE], 15, 1 << 48), (4, 23)),
        (reading(0, &[ONE], 15, 1 << 47), (0, 0)),
    ] {
        for tone in [0, 255, 256, 511] {
            let sheet = sheet(512, 0, &[twin(&short, tone)]);
            assert_eq!(refusal(&sheet), due, "{short:02x?} for tone {tone}");
        }
    }
}

/// Bits of tones 254 to 257 of a table.
fn about_256(table: &[u8]) -> [u8; 4] {
    [254, 255, 256, 257].map(|tone| table[BYTES_A_TONE * tone])
}

/// On a full line of equal tones, whose steps are 3, 6 and 12, the lower tone comes first.
#[test]
fn ties_at_256() {
    let tones: Vec<Vec<u8>> = (0..1024).rev().map(|tone| any_pair(tone, 3, 15)).collect();
    let (mut table, mut answer) = (vec![0; 9 * 1024], [0; 24]);
    for (budget, due, total) in [
        (3 * 255, [1, 0, 0, 0], 255),
        (3 * 256, [1, 1, 0, 0], 256),
        (3 * 257 - 1, [1, 1, 0, 0], 256),
        (3 * 257, [1, 1, 1, 0], 257),
        (3 * 1024 + 6 * 256, [2, 2, 1, 1], 1280),
        (3 * 1024 + 6 * 257, [2, 2, 2, 1], 1281),
    ] {
        let sheet = sheet(1024, budget, &tones);
        assert_eq!(load_most(&sheet, &mut table, &mut answer), 0);
        assert_eq!((about_256(&table), value(&answer)), (due, total));
        assert_eq!(load_target(&sheet, total as u32, &mut table, &mut answer), 0);
        assert_eq!((about_256(&table), value(&answer)), (due, total));
        assert_eq!(load_target(&sheet, total as u32 + 1, &mut table, &mut answer), 11 << 32);
    }
}

/// The latest held step is that of the highest tone, and the earliest free one that of the
/// lowest: from bits on the upper tones they go down, across 256, one exchange after another.
#[test]
fn refit_across_256() {
    let tones: Vec<Vec<u8>> = (0..1024).map(|tone| any_pair(tone, 3, 1)).collect();
    let sheet = sheet(1024, 3 * 256, &tones);
    let (mut table, mut answer) = (vec![0; 9 * 1024], [0; 24]);
    let start: Vec<u8> = (0..1024).map(|tone| u8::from((255..511).contains(&tone))).collect();
    assert_eq!(refit_step(&sheet, &start, &mut table, &mut answer), 0);
    let bits: Vec<u8> = table.chunks(9).map(|entry| entry[0]).collect();
    assert_eq!((bits[0], bits[509], bits[510], bits[511]), (1, 1, 0, 0));
    assert_eq!(refit(&sheet, &start, &mut table, &mut answer), 0);
    assert_eq!(about_256(&table), [1, 1, 0, 0]);
    assert_eq!([value(&answer), value(&answer[8..]), value(&answer[16..])], [256, 768, 255]);
    let above: Vec<u8> = start[..1023].iter().copied().chain([2]).collect();
    assert_eq!(refit(&sheet, &above, &mut table, &mut answer), 10 << 32 | 1023);
    assert_eq!(refit(&sheet, &start[..1023], &mut table, &mut answer), 9 << 32);
}

/// Limits, and what a check counts, up to the last tone.
#[test]
fn limits_of_the_last_tones() {
    let silence = vec![6, 31, 0x80, 0, 0, 0];
    let tones = [any_pair(1023, 3, 15), any_pair(1022, 3, 2), any_pair(1021, 3, 15), silence];
    let sheet = sheet(1024, 0, &tones);
    let (mut written, mut answer) = (vec![238; 2 * 1024], [0; 24]);
    assert_eq!(limits(&sheet, &mut written, &mut answer), 0);
    let set = [SetBy::Mask, SetBy::Cap, SetBy::Silent].map(|set| set as u8);
    assert_eq!(written[2 * 1021..], [5, set[0], 2, set[1], 0, set[2]]);
    assert!(written[..2 * 1021].iter().all(|byte| *byte == 0));
    assert_eq!(check(&sheet, &mut answer), 0);
    assert_eq!([value(&answer), value(&answer[8..]), value(&answer[16..])], [1024, 3, 1]);
    assert_eq!(limits(&sheet, &mut written[..2047], &mut answer), 8 << 32);
    let mut table = vec![0; 9 * 1024];
    assert_eq!(load_most(&sheet, &mut table[..9215], &mut answer), 8 << 32);
    assert_eq!(load_most(&sheet, &mut table, &mut answer), 0);
}

/// A sheet of 32,768 bytes is read, and one of 32,769 is not, whatever its bytes are.
#[test]
fn longest_sheets() {
    let mut commands = vec![any_pair(1023, 3, 15)];
    commands.extend(vec![vec![6, 31, 0, 0, 0, 0]; 5_456]);
    let longest = sheet(1024, 3, &commands);
    assert_eq!(longest.len(), LARGEST_SHEET);
    assert_eq!(tidied(&longest), sheet(1024, 3, &commands[..1]));
    assert_eq!(refusal(&[&longest[..], &[7]].concat()), (1, 0));
    assert_eq!(refusal(&longest[..LARGEST_SHEET - 1]), (2, LARGEST_SHEET - 1));
    assert_eq!(refusal(&[0; LARGEST_SHEET]), (3, 0));
    assert_eq!(refusal(&[0; LARGEST_SHEET + 1]), (1, 0));
    commands.extend([any_pair(0, 3, 15), any_pair(2, 3, 15)]);
    assert_eq!(refusal(&sheet(1024, 3, &commands)), (1, 0));
}

/// Full lines by each command, with a rest on each tone; and the longest tidy sheet, with
/// each word silenced besides.
#[test]
fn full_lines() {
    let single = [&[5][..], &pair(0, 2, 7)[1..]].concat();
    let both = reading(0, &bits(&[3.0, 2.0]), 15, 100);
    let ratio = reading(0, &bits(&[1.5]), 15, 100);
    for (tone, first_step) in [(pair(0, 2, 15), 1), (single, 5), (both, 1), (ratio, 1)] {
        let with_rest = |number: u16| match u8::try_from(number) {
            Ok(byte) => [&[tone[0], byte], &tone[2..], &rest(byte, 1)].concat(),
            Err(_) => [twin(&tone, number), twin(&rest(0, 1), number)].concat(),
        };
        let mut commands: Vec<Vec<u8>> = (0..TONES as u16).map(with_rest).collect();
        let full = sheet(1024, 1024 + 700 * first_step, &commands);
        assert_eq!(tidied(&full), full);
        let line = read(&full).unwrap();
        assert_eq!((line.count_described(), tidy_length(&line)), (1024, full.len()));
        // Each costs 2, and its rest is 1.
        let mut run = Running::nothing(&line);
        while run.add() {}
        assert_eq!((run.total_bits, run.total_power), (700, line.budget));
        assert_eq!((run.bits[699], run.bits[700]), (1, 0));
        commands.extend((0..32).map(|word| vec![6, word, 0, 0, 0, 1]));
        let longest = sheet(1024, 1024, &commands);
        assert_eq!(longest.len(), 16 + 1024 * (tone.len() + 6) + 2 * 768 + 32 * 6);
        assert_eq!(tidied(&longest), longest);
    }
}
