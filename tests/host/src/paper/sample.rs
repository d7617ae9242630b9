//! The independent loader on the papers' own cases, and by exhaustion.

use super::line::{cost, limit, read, set_by, Kind, SetBy, Tone, LARGEST_POWER, LARGEST_SHEET};
use super::reading::LARGEST_COST;
use super::run::{Running, Step};
use super::*;
use crate::random::Random;
use std::collections::BTreeSet;

/// The sheet of document 01 at a budget.
pub fn sample(budget: u64) -> Vec<u8> {
    let mut sheet = vec![1, 0, 3, 2, 1, 0, 3];
    sheet.extend(budget.to_be_bytes());
    sheet.extend([4, 0, 0, 3, 0, 1, 15, 0, 0, 0, 0, 0, 0, 0, 100]);
    sheet.extend([4, 1, 0, 5, 0, 1, 2, 0, 0, 0, 0, 0, 0, 0, 100]);
    sheet.extend([5, 2, 0, 1, 0, 1, 7, 0, 0, 0, 0, 0, 0, 0, 100, 7]);
    sheet
}

/// The same sheet with another command for its gap.
fn with_gap(budget: u64, gap: &[u8]) -> Vec<u8> {
    let sheet = sample(budget);
    [&sheet[..3], gap, &sheet[6..]].concat()
}

/// A call's returned number, the table's bits, its powers, and the three answers.
pub type Outcome = (u64, [u8; 3], [u64; 3], [u64; 3]);

pub fn value(bytes: &[u8]) -> u64 {
    u64::from_be_bytes(bytes[..8].try_into().unwrap())
}

pub fn outcome(call: impl Fn(&mut [u8], &mut [u8]) -> u64) -> Outcome {
    let (mut table, mut answer) = ([0; 27], [0; 24]);
    let returned = call(&mut table, &mut answer);
    let bits = [table[0], table[9], table[18]];
    let powers = [value(&table[1..]), value(&table[10..]), value(&table[19..])];
    (returned, bits, powers, [value(&answer), value(&answer[8..]), value(&answer[16..])])
}

fn most(budget: u64) -> Outcome {
    outcome(|table, answer| load_most(&sample(budget), table, answer))
}

fn target(budget: u64, target: u32) -> Outcome {
    outcome(|table, answer| load_target(&sample(budget), target, table, answer))
}

const REFUSED_11: Outcome = (11 << 32, [0; 3], [0; 3], [0; 3]);

/// The limits of a sheet of three tones, each with what set it.
fn limits_of(sheet: &[u8]) -> [(u8, SetBy); 3] {
    let line = read(sheet).unwrap();
    [0, 1, 2].map(|tone| line.limit(tone))
}

#[test]
fn limits_and_what_set_them() {
    let run = Running::nothing(&read(&sample(0)).unwrap());
    assert_eq!(run.limit[..3], [5, 2, 3]);
    let due = [(5, SetBy::Mask), (2, SetBy::Cap), (3, SetBy::Mask)];
    for budget in [0, 39, LARGEST_POWER] {
        assert_eq!(limits_of(&sample(budget)), due);
    }
}

/// "every other tone is silent": tone 1 silenced, and then tone 0 not described.
#[test]
fn silent_tones() {
    let sheet = sample(39);
    let silenced = [&sheet[..60], &[6, 0, 0, 0, 0, 2, 7]].concat();
    let due = [(5, SetBy::Mask), (0, SetBy::Silent), (3, SetBy::Mask)];
    assert_eq!(limits_of(&silenced), due);
    let undescribed = [&sheet[..15], &sheet[30..]].concat();
    let due = [(0, SetBy::Silent), (2, SetBy::Cap), (3, SetBy::Mask)];
    assert_eq!(limits_of(&undescribed), due);
}

/// A pair tone whose cost is 3 at a gap of 256.
fn pair_of_3(cap: u8, mask: u64) -> Tone {
    Tone { kind: Kind::Pair, given: Given::Whole { noise: 3, gain: 1 }, cap, mask }
}

/// A pair tone of cost 3: its powers are 3, 9, 21.
#[test]
fn cap_or_mask() {
    for (cap, mask, due) in [
        (0, 100, (0, SetBy::Cap)),
        (0, 0, (0, SetBy::Cap)),
        (1, 0, (0, SetBy::Mask)),
        (15, 0, (0, SetBy::Mask)),
        (2, 8, (1, SetBy::Mask)),
        // One bit more would be over the cap, and over the mask too.
        (2, 9, (2, SetBy::Cap)),
        (2, 21, (2, SetBy::Cap)),
        (3, 9, (2, SetBy::Mask)),
    ] {
        let tone = pair_of_3(cap, mask);
        let limit = limit(&tone, 3);
        assert_eq!((limit, set_by(&tone, 3, limit)), due, "cap {cap}, mask {mask}");
    }
}

/// 2 bytes a tone, bytes past those stay, and there are no answers.
#[test]
fn limits_written() {
    let (mut written, mut answer) = ([238; 7], [238; 24]);
    assert_eq!(limits(&sample(39), &mut written, &mut answer), 0);
    assert_eq!(written, [5, 2, 2, 1, 3, 2, 238]);
    assert_eq!(answer, [238; 24]);
}

/// Refusal 8 under 2 x N bytes, or under 24 for the answers, after those of the sheet.
#[test]
fn limits_refused() {
    let refusal = |sheet: &[u8], room: usize, answers: usize| {
        let (mut written, mut answer) = (vec![238; room], vec![238; answers]);
        let returned = limits(sheet, &mut written, &mut answer);
        assert!(returned == 0 || written.iter().chain(&answer).all(|byte| *byte == 238));
        returned
    };
    assert_eq!(refusal(&sample(39), 6, 24), 0);
    assert_eq!(refusal(&sample(39), 5, 24), 8 << 32);
    assert_eq!(refusal(&sample(39), 0, 24), 8 << 32);
    assert_eq!(refusal(&sample(39), 6, 23), 8 << 32);
    assert_eq!(refusal(&[], 0, 0), 2 << 32);
}

#[test]
fn most_bits() {
    assert_eq!(most(39), (0, [3, 2, 1], [21, 15, 3], [6, 39, 0]));
    assert_eq!(most(38), (0, [2, 2, 1], [9, 15, 3], [5, 27, 0]));
    assert_eq!(most(50), most(39));
    assert_eq!(most(51), (0, [3, 2, 2], [21, 15, 15], [7, 51, 0]));
    assert_eq!(most(2), (0, [0; 3], [0; 3], [0; 3]));
    assert_eq!(most(3), (0, [1, 0, 0], [3, 0, 0], [1, 3, 0]));
    assert_eq!(most(170), (0, [5, 2, 2], [93, 15, 15], [9, 123, 0]));
    assert_eq!(most(171), (0, [5, 2, 3], [93, 15, 63], [10, 171, 0]));
}

#[test]
fn set_number_of_bits() {
    assert_eq!(target(39, 6), most(39));
    assert_eq!(target(38, 6), REFUSED_11);
    for budget in [0, 2, 38, 39, 170, 171, 1000, LARGEST_POWER] {
        assert_eq!(target(budget, 11), REFUSED_11);
        assert_eq!(target(budget, 0), (0, [0; 3], [0; 3], [0; 3]));
    }
}

#[test]
fn refit_in_three_moves() {
    let sheet = sample(39);
    let step = |start: [u8; 3]| outcome(|table, answer| refit_step(&sheet, &start, table, answer));
    assert_eq!(step([0, 2, 3]), (0, [1, 2, 2], [3, 15, 15], [5, 33, 1]));
    assert_eq!(step([1, 2, 2]), (0, [2, 2, 1], [9, 15, 3], [5, 27, 1]));
    assert_eq!(step([2, 2, 1]), (0, [3, 2, 1], [21, 15, 3], [6, 39, 1]));
    assert_eq!(step([3, 2, 1]), (0, [3, 2, 1], [21, 15, 3], [6, 39, 0]));
    let run = outcome(|table, answer| refit(&sheet, &[0, 2, 3], table, answer));
    assert_eq!(run, (0, [3, 2, 1], [21, 15, 3], [6, 39, 3]));
}

#[test]
fn exchanges_go_on_within_the_budget() {
    let run = outcome(|table, answer| refit(&sample(38), &[0, 2, 3], table, answer));
    assert_eq!(run, (0, [2, 2, 1], [9, 15, 3], [5, 27, 2]));
}

#[test]
fn costs_and_limits() {
    assert_eq!(cost(257, 1, 1), 2);
    assert_eq!(cost(256, 7, 2), 4);
    assert_eq!(cost(256, 1, 65_535), 1);
    assert_eq!(cost(65_535, 65_535, 1), 16_776_705);
    for (mask, bits) in [(2, 0), (3, 1), (8, 1), (9, 2)] {
        let tone = pair_of_3(15, mask);
        assert_eq!(limit(&tone, 3), bits);
    }
}

pub fn refusal(sheet: &[u8]) -> (u32, usize) {
    read(sheet).map_or_else(|refusal| (refusal.number, refusal.place), |_| (0, 0))
}

/// 08 gives a gap that 02 could give, and the loading is the same.
#[test]
fn tenths_load_as_their_gap() {
    for (tenths, gap) in [(0, 256_u16), (100, 2_560), (200, 25_600)] {
        let [high, low] = gap.to_be_bytes();
        for budget in [0, 39, 390, 3_900, LARGEST_POWER] {
            let in_tenths = with_gap(budget, &[8, tenths]);
            let whole = with_gap(budget, &[2, high, low]);
            assert_eq!(printed(&in_tenths), printed(&whole));
            assert_ne!(read(&in_tenths), read(&whole));
        }
    }
}

/// The tidy form has the command that the sheet had.
#[test]
fn tidying_keeps_tenths() {
    for gap in [&[8, 100][..], &[8, 0], &[8, 240], &[2, 10, 0]] {
        let sheet = with_gap(39, gap);
        let (mut written, mut answer) = (vec![0; sheet.len()], [0; 24]);
        assert_eq!(tidy(&sheet, &mut written, &mut answer), 0);
        assert_eq!((&written, value(&answer)), (&sheet, sheet.len() as u64));
        written.pop();
        assert_eq!(tidy(&sheet, &mut written, &mut answer), 8 << 32);
    }
}

/// 08 stands where 02 stands and nowhere else; d is from 0 to 240.
#[test]
fn tenths_refused() {
    for (tenths, due) in [(0, (0, 0)), (240, (0, 0)), (241, (4, 4)), (255, (4, 4))] {
        assert_eq!(refusal(&with_gap(39, &[8, tenths])), due);
    }
    assert_eq!(refusal(&[1, 0, 3, 8]), (2, 4));
    assert_eq!(refusal(&[8, 100, 1, 0, 3]), (3, 0));
    assert_eq!(refusal(&with_gap(39, &[8, 100, 8, 100])), (3, 5));
    assert_eq!(refusal(&with_gap(39, &[8, 100, 2, 1, 0])), (3, 5));
    assert_eq!(refusal(&with_gap(39, &[2, 1, 0, 8, 100])), (3, 6));
    let sheet = sample(39);
    for place in [15, 30, 60] {
        let among = [&sheet[..place], &[8, 100], &sheet[place..]].concat();
        assert_eq!(refusal(&among), (3, place));
    }
}

/// 09 or 0A of a tone, with its floats, cap and mask.
pub fn reading(number: u8, floats: &[u32], cap: u8, mask: u64) -> Vec<u8> {
    let mut bytes = vec![if floats.len() == 2 { 9 } else { 10 }, number];
    floats.iter().for_each(|float| bytes.extend(float.to_be_bytes()));
    bytes.push(cap);
    bytes.extend(mask.to_be_bytes());
    bytes
}

pub fn bits(floats: &[f32]) -> Vec<u32> {
    floats.iter().map(|float| float.to_bits()).collect()
}

/// The sheet of document 01 with other commands for its first tones, of which there are
/// as many, and another gap.
pub fn with_tones(budget: u64, gap: u16, tones: &[Vec<u8>]) -> Vec<u8> {
    let [high, low] = gap.to_be_bytes();
    let sheet = with_gap(budget, &[2, high, low]);
    [&sheet[..15], &tones.concat(), &sheet[15 + 15 * tones.len()..]].concat()
}

/// The sample's first tone by 04, 09 and 0A: the loading is the same, and what a check
/// and the limits say of it.
#[test]
fn readings_load_as_their_ratio() {
    let tones = [
        reading(0, &bits(&[3.0, 1.0]), 15, 100),
        reading(0, &bits(&[1.5, 0.5]), 15, 100),
        reading(0, &bits(&[3.0 * f32::MIN_POSITIVE, f32::MIN_POSITIVE]), 15, 100),
        // Both subnormal.
        reading(0, &[9, 3], 15, 100),
        reading(0, &bits(&[3.0]), 15, 100),
        // Ratios above 2 and below 3 cost 3 too.
        reading(0, &bits(&[2.000_001]), 15, 100),
        reading(0, &bits(&[5.0, 2.0]), 15, 100),
    ];
    for tone in tones {
        for budget in [0, 3, 38, 39, 51, 170, 171, LARGEST_POWER] {
            let (sheet, whole) =
                (with_tones(budget, 256, std::slice::from_ref(&tone)), sample(budget));
            assert_eq!(printed(&sheet), printed(&whole));
            assert_ne!(read(&sheet), read(&whole));
            let counts = |sheet| outcome(|_, answer| check(sheet, answer));
            assert_eq!(counts(&sheet), counts(&whole));
        }
    }
}

/// A reading whose ratio is next to nothing, or 1, costs 1: its powers are 1, 3, 7.
#[test]
fn smallest_readings() {
    for floats in [&[1][..], &[1, 0x7f7f_ffff], &[1, 1], &[0x3f80_0000], &[0x0080_0000]] {
        let sheet = with_tones(7, 256, &[reading(0, floats, 3, 7)]);
        assert_eq!(limits_of(&sheet)[0], (3, SetBy::Cap));
        let run = outcome(|table, answer| load_most(&sheet, table, answer));
        assert_eq!(run, (0, [2, 0, 1], [3, 0, 3], [3, 6, 0]));
    }
}

/// The tidy form has the command that the sheet had, and the floats' bits, among the
/// other tones by number.
#[test]
fn tidying_keeps_readings() {
    let both = reading(0, &[0x4049_0fdb, 0x3f80_0001], 15, 100);
    let ratio = reading(1, &[1], 2, 100);
    let sheet = with_tones(39, 256, &[both, ratio]);
    let falling = [&sheet[..15], &sheet[49..64], &sheet[34..49], &sheet[15..34], &[7]].concat();
    for untidy in [&sheet, &falling] {
        let (mut written, mut answer) = (vec![0; sheet.len()], [0; 24]);
        assert_eq!(tidy(untidy, &mut written, &mut answer), 0);
        assert_eq!((&written, value(&answer)), (&sheet, sheet.len() as u64));
        written.pop();
        assert_eq!(tidy(untidy, &mut written, &mut answer), 8 << 32);
    }
}

/// 12 at the first float that is at fault, 13 at the command's first float, before cap
/// and mask.
#[test]
fn readings_refused() {
    const ONE: u32 = 0x3f80_0000;
    const LARGEST: u32 = 0x7f7f_ffff;
    let over = (LARGEST_COST as f32 + 1.0).to_bits();
    for (floats, cap, mask, due) in [
        (&[0, ONE][..], 16, 1 << 48, (12, 17)),
        (&[0x8000_0000, 0], 15, 0, (12, 17)),
        (&[ONE, 0x7f80_0000], 16, 1 << 48, (12, 21)),
        (&[LARGEST, 0], 15, 0, (12, 21)),
        (&[0x7fc0_0000, LARGEST], 15, 0, (12, 17)),
        (&[0xbf80_0000, 0xbf80_0000], 15, 0, (12, 17)),
        (&[LARGEST, 1], 16, 1 << 48, (13, 17)),
        (&[over, ONE], 15, 1 << 48, (13, 17)),
        (&[1, LARGEST], 16, 1 << 48, (4, 25)),
        (&[1, LARGEST], 15, 1 << 48, (4, 26)),
        (&[1, LARGEST], 15, 1 << 47, (0, 0)),
        (&[0], 16, 1 << 48, (12, 17)),
        (&[0xff80_0000], 15, 0, (12, 17)),
        (&[0x7f80_0001], 15, 0, (12, 17)),
        (&[over], 16, 1 << 48, (13, 17)),
        (&[over - 1], 16, 1 << 48, (4, 21)),
        (&[over - 1], 15, 1 << 48, (4, 22)),
        (&[over - 1], 15, 1 << 47, (0, 0)),
    ] {
        let sheet = with_tones(39, 256, &[reading(0, floats, cap, mask)]);
        assert_eq!(refusal(&sheet), due, "{floats:08x?}, cap {cap}, mask {mask}");
    }
}

/// The cost is judged at the sheet's own gap, which may be in tenths of a decibel.
#[test]
fn readings_refused_by_their_gap() {
    for (gap, floats, due) in [
        (65_535, [65_535.0], (0, 0)),
        (65_535, [65_535.004], (13, 17)),
        (256, [65_535.004], (0, 0)),
        (256, [16_776_706.0], (13, 17)),
    ] {
        let sheet = with_tones(39, gap, &[reading(0, &bits(&floats), 15, 100)]);
        assert_eq!(refusal(&sheet), due, "{floats:?} at gap {gap}");
    }
    let sheet = with_gap(39, &[8, 100]);
    for (float, due) in [(1_677_670.5, (0, 0)), (1_677_670.6, (13, 16))] {
        let tone = reading(0, &bits(&[float]), 15, 100);
        let sheet = [&sheet[..14], &tone, &sheet[29..]].concat();
        assert_eq!(refusal(&sheet), due, "{float}");
    }
}

/// 5 and then 6 at the tone, before its floats; a tone is described once, whichever its
/// commands are.
#[test]
fn readings_of_a_tone() {
    let sheet = sample(39);
    let among = |place: usize, tone: &[u8]| [&sheet[..place], tone, &sheet[place..]].concat();
    for floats in [&[0, 0][..], &[0x7f7f_ffff, 1], &[0]] {
        assert_eq!(refusal(&among(15, &reading(3, floats, 16, 0))), (5, 16));
        assert_eq!(refusal(&among(60, &reading(2, floats, 16, 0))), (6, 61));
    }
    for first in [&[0x3f80_0000][..], &[0x3f80_0000, 0x3f80_0000]] {
        let first = reading(1, first, 2, 0);
        // The sample's own tone 1 comes second.
        assert_eq!(refusal(&among(15, &first)), (6, 15 + first.len() + 16));
        for second in [&[0][..], &[0, 0]] {
            let twice = [&first[..], &reading(1, second, 2, 0)].concat();
            assert_eq!(refusal(&among(15, &twice)), (6, 16 + first.len()));
        }
    }
}

/// 09 and 0A stand where 04 stands and nowhere else, and have all their bytes.
#[test]
fn places_of_readings() {
    let sheet = sample(39);
    for floats in [&[0, 0][..], &[0]] {
        let tone = reading(0, floats, 16, 1 << 48);
        for place in [0, 3, 6] {
            let early = [&sheet[..place], &tone, &sheet[place..]].concat();
            assert_eq!(refusal(&early), (3, place));
        }
        for length in 1..tone.len() {
            let cut = [&sheet[..15], &tone[..length]].concat();
            assert_eq!(refusal(&cut), (2, 15 + length));
        }
        assert_eq!(refusal(&[&sheet[..], &tone].concat()), (7, 61));
    }
    assert_eq!(refusal(&[&sheet[..15], &[13]].concat()), (3, 15));
}

/// 0B of a tone.
pub fn rest(number: u8, rest: u32) -> Vec<u8> {
    [&[11, number][..], &rest.to_be_bytes()].concat()
}

/// The sample with other commands before its end.
pub fn and(budget: u64, commands: &[Vec<u8>]) -> Vec<u8> {
    [&sample(budget)[..60], &commands.concat(), &[7]].concat()
}

/// The sample with a rest of 2 on tone 0 and of 1 on tone 1. Its costs are 3, 5 and 1, so
/// that the first steps are 1, 4 and, without a rest, 3.
fn rested(budget: u64) -> Vec<u8> {
    and(budget, &[rest(0, 2), rest(1, 1)])
}

/// Steps 1, 3 and 4 lead from the rests, 3 in all, to 4, 7 and 11; from there on it is the
/// sample.
#[test]
fn most_bits_with_rests() {
    let most = |budget| outcome(|table, answer| load_most(&rested(budget), table, answer));
    let nothing = (0, [0; 3], [2, 1, 0], [0, 3, 0]);
    assert_eq!(most(2), (16 << 32, [0; 3], [0; 3], [0; 3]));
    assert_eq!(most(3), nothing);
    assert_eq!(most(4), (0, [1, 0, 0], [3, 1, 0], [1, 4, 0]));
    assert_eq!(most(6), most(4));
    assert_eq!(most(7), (0, [1, 0, 1], [3, 1, 3], [2, 7, 0]));
    assert_eq!(most(10), most(7));
    assert_eq!(most(11), (0, [1, 1, 1], [3, 5, 3], [3, 11, 0]));
    for budget in [11, 38, 39, 50, 51, 170, 171] {
        assert_eq!(most(budget), self::most(budget));
    }
}

#[test]
fn set_number_of_bits_with_rests() {
    let target = |budget, target| {
        outcome(|table, answer| load_target(&rested(budget), target, table, answer))
    };
    for budget in [3, 39, 171, LARGEST_POWER] {
        assert_eq!(target(budget, 0), (0, [0; 3], [2, 1, 0], [0, 3, 0]));
        assert_eq!(target(budget, 11), REFUSED_11);
    }
    assert_eq!(target(3, 1), REFUSED_11);
    assert_eq!(target(39, 1), (0, [1, 0, 0], [3, 1, 0], [1, 4, 0]));
    assert_eq!(target(39, 6), self::target(39, 6));
    assert_eq!(target(38, 6), REFUSED_11);
}

/// From 0, 2, 3 at 39 as without rests, but that the start has 2 more. At 3 no step fits.
/// From 0, 0, 1 at 6 the start's 6 fits, and tone 0's step of 1 comes before the 3 of tone 2.
#[test]
fn refit_with_rests() {
    let refit = |budget, start: [u8; 3]| {
        outcome(|table, answer| super::refit(&rested(budget), &start, table, answer))
    };
    let step = |budget, start: [u8; 3]| {
        outcome(|table, answer| refit_step(&rested(budget), &start, table, answer))
    };
    assert_eq!(step(39, [0, 2, 3]), (0, [1, 2, 2], [3, 15, 15], [5, 33, 1]));
    assert_eq!(refit(39, [0, 2, 3]), (0, [3, 2, 1], [21, 15, 3], [6, 39, 3]));
    assert_eq!(refit(3, [0; 3]), (0, [0; 3], [2, 1, 0], [0, 3, 0]));
    assert_eq!(step(3, [0; 3]), refit(3, [0; 3]));
    assert_eq!(step(4, [0; 3]), (0, [1, 0, 0], [3, 1, 0], [1, 4, 1]));
    assert_eq!(refit(6, [0, 0, 1]), (0, [1, 0, 0], [3, 1, 0], [1, 4, 1]));
    assert_eq!(refit(3, [1, 0, 0]), (0, [0; 3], [2, 1, 0], [0, 3, 1]));
    assert_eq!(refit(3, [5, 2, 3]), (0, [0; 3], [2, 1, 0], [0, 3, 10]));
}

/// "A silenced tone sends nothing", wherever its silence stands; it keeps its rest.
#[test]
fn silenced_rests() {
    let silence = vec![6, 0, 0, 0, 0, 1];
    let after = and(1, &[rest(0, 2), rest(1, 1), silence.clone()]);
    let between = and(1, &[rest(1, 1), silence.clone(), rest(0, 2)]);
    let first = [&sample(1)[..15], &silence, &rested(1)[15..]].concat();
    for sheet in [&after, &between, &first] {
        let run = outcome(|table, answer| load_most(sheet, table, answer));
        assert_eq!(run, (0, [0; 3], [0, 1, 0], [0, 1, 0]));
        let counts = outcome(|_, answer| check(sheet, answer));
        assert_eq!(counts.3, [3, 3, 1]);
        assert_eq!(read(sheet), read(&after));
        let mut over = sheet.clone();
        over[14] = 0;
        assert_eq!(refusal(&over), (16, 0));
    }
    assert_ne!(read(&after), read(&and(1, &[rest(1, 1), silence.clone()])));
    // 15 is judged of it too.
    assert_eq!(refusal(&and(1, &[silence, rest(0, 3)])), (15, 68));
}

/// Two rests that make first steps of all sizes alike: the lower tone comes first.
#[test]
fn ties_by_rests() {
    // Costs 3, 5 and 1: first steps 3, 3 and 3.
    let sheet = |budget| and(budget, &[rest(1, 2)]);
    let most = |budget| outcome(|table, answer| load_most(&sheet(budget), table, answer));
    assert_eq!(most(5), (0, [1, 0, 0], [3, 2, 0], [1, 5, 0]));
    assert_eq!(most(8), (0, [1, 1, 0], [3, 5, 0], [2, 8, 0]));
    assert_eq!(most(11), (0, [1, 1, 1], [3, 5, 3], [3, 11, 0]));
    let step = outcome(|table, answer| refit_step(&sheet(5), &[0, 0, 1], table, answer));
    assert_eq!(step, (0, [1, 0, 0], [3, 2, 0], [1, 5, 1]));
}

/// A rest of 0 and none are one line, and not one with a rest.
#[test]
fn rest_of_0() {
    let sheet = and(39, &[rest(0, 0), rest(2, 0)]);
    assert_eq!(read(&sheet), read(&sample(39)));
    assert_ne!(read(&sheet), read(&rested(39)));
}

/// A rest is tidied to stand straight after its tone, and one of 0 is dropped.
#[test]
fn tidying_rests() {
    let sheet = sample(39);
    let due = [&sheet[..30], &rest(0, 2), &sheet[30..45], &rest(1, 1), &sheet[45..]].concat();
    let silence = vec![6, 0, 0, 0, 0, 2];
    let silenced = [&due[..due.len() - 1], &silence, &[7]].concat();
    for (untidy, due) in [
        (rested(39), &due),
        (and(39, &[rest(1, 1), rest(2, 0), rest(0, 2)]), &due),
        (due.clone(), &due),
        (and(39, &[rest(2, 0)]), &sheet),
        (and(39, &[silence, rest(1, 1), rest(0, 2)]), &silenced),
    ] {
        let (mut written, mut answer) = (vec![0; due.len()], [0; 24]);
        assert_eq!(tidy(&untidy, &mut written, &mut answer), 0);
        assert_eq!((&written, value(&answer)), (due, due.len() as u64));
        assert_eq!(read(due), read(&untidy));
        written.pop();
        assert_eq!(tidy(&untidy, &mut written, &mut answer), 8 << 32);
    }
}

/// 5 and then 14 at the tone, 15 at the rest; the sample's tones cost 3, 5 and 1.
#[test]
fn rests_refused() {
    let any = u32::MAX;
    for (rests, due) in [
        (vec![(0, 2), (1, 4), (2, 0)], (0, 0)),
        (vec![(3, any)], (5, 61)),
        (vec![(0, 2), (255, 0)], (5, 67)),
        (vec![(0, 2), (0, any)], (14, 67)),
        (vec![(0, 0), (0, 0)], (14, 67)),
        (vec![(0, 0), (1, 1), (0, 2)], (14, 73)),
        (vec![(0, 3)], (15, 62)),
        (vec![(1, 5)], (15, 62)),
        (vec![(2, 1)], (15, 62)),
        (vec![(0, 2), (1, any)], (15, 68)),
        (vec![(0, 1 << 24)], (15, 62)),
    ] {
        let rests: Vec<Vec<u8>> =
            rests.into_iter().map(|(tone, power)| rest(tone, power)).collect();
        assert_eq!(refusal(&and(39, &rests)), due, "{rests:02x?}");
    }
    // Before the tone is described, and of one that is not.
    let sheet = sample(39);
    let early = |place: usize| [&sheet[..place], &rest(1, 1), &sheet[place..]].concat();
    for (place, due) in [(15, (14, 16)), (30, (14, 31)), (45, (0, 0)), (60, (0, 0))] {
        assert_eq!(refusal(&early(place)), due);
    }
    let undescribed = [&sheet[..15], &sheet[30..60], &rest(0, 0), &[7]].concat();
    assert_eq!(refusal(&undescribed), (14, 46));
}

/// A rest up to the mask and below the cost, of every command and at the sheet's own gap.
#[test]
fn largest_rests() {
    let whole = |command: u8, mask: u8| vec![command, 0, 0, 3, 0, 1, 7, 0, 0, 0, 0, 0, 0, 0, mask];
    for mask in [0, 1, 2, 3, 100] {
        let tones = [
            whole(4, mask),
            whole(5, mask),
            reading(0, &bits(&[6.0, 2.0]), 7, mask.into()),
            reading(0, &bits(&[3.0]), 7, mask.into()),
        ];
        for (tone, (gap, cost)) in tones.iter().flat_map(|t| [(256, 3), (512, 6)].map(|g| (t, g))) {
            let due = u32::min(mask.into(), cost - 1);
            for (power, due) in [(due, (0, 0)), (due + 1, (15, 17 + tone.len()))] {
                let commands = [&tone[..], &rest(0, power)].concat();
                let sheet = with_tones(39, gap, &[commands]);
                assert_eq!(refusal(&sheet), due, "{sheet:02x?}");
            }
        }
    }
}

/// 0B stands where 04 stands and nowhere else, and has all its bytes.
#[test]
fn places_of_rests() {
    let sheet = sample(39);
    let new = rest(3, u32::MAX);
    for place in [0, 3, 6] {
        let early = [&sheet[..place], &new, &sheet[place..]].concat();
        assert_eq!(refusal(&early), (3, place));
    }
    for length in 1..new.len() {
        let cut = [&sheet[..60], &new[..length]].concat();
        assert_eq!(refusal(&cut), (2, 60 + length));
    }
    assert_eq!(refusal(&[&sheet[..], &new].concat()), (7, 61));
}

/// 16 in every call, after 7 and before 8, 9, 10 and 11.
#[test]
fn rests_over_the_budget() {
    use crate::calls::Call;
    // The first budget of the list is the sheet's, at its bytes 7 to 14.
    let every = |sheet: &[u8], start: &[u8], room: usize| {
        Call::ALL.map(|call| {
            let (mut written, mut answer) = (vec![238; room], vec![238; room.min(24)]);
            let source = if call == Call::Budgets { &sheet[7..15] } else { start };
            let returned = call.papers(sheet, source, u32::MAX, &mut written, &mut answer);
            assert!(returned == 0 || written.iter().chain(&answer).all(|byte| *byte == 238));
            returned
        })
    };
    let over = rested(2);
    // A good start; one of a wrong length; one above the limit of tone 1.
    for start in [&[0, 2, 3][..], &[0, 2], &[0, 3, 0]] {
        for room in [0, 23, 100] {
            assert_eq!(every(&over, start, room), [16 << 32; 9]);
        }
    }
    assert_eq!(every(&[&over[..], &[7]].concat(), &[], 0), [7 << 32 | over.len() as u64; 9]);
    let at_end = and(2, &[rest(0, 2), rest(1, 1), rest(2, 1)]);
    assert_eq!(every(&at_end, &[], 0), [15 << 32 | 74; 9]);
    assert_eq!(every(&rested(3), &[0; 3], 0), [8 << 32; 9]);
    assert_eq!(printed(&over), "refused 16 0\n");
    let due = "0 0 2 mask\n1 0 1 cap\n2 0 0 mask\ntotal 0 3\n";
    assert_eq!(printed(&rested(3)), due);
}

#[test]
fn bench_program_output() {
    let due = "0 3 21 mask\n1 2 15 cap\n2 1 3 mask\ntotal 6 39\n";
    assert_eq!(printed(&sample(39)), due);
    assert_eq!(printed(&[]), "refused 2 0\n");
    assert_eq!(printed(&[1; LARGEST_SHEET]), "refused 3 3\n");
    assert_eq!(printed(&[1; LARGEST_SHEET + 1]), "refused 1 0\n");
}

/// A tone's power at some number of bits, from what the sheet says of it.
fn power(line: &Line, number: usize, bits: u8) -> u64 {
    match &line.described[number] {
        Some(tone) if bits > 0 => line::power(tone.kind, tone.cost(line.gap.value()), bits),
        Some(_) if !line.is_silenced(number) => line.rests[number].into(),
        _ => 0,
    }
}

/// Every table within the limits: the least power for each number of bits.
fn least_powers(line: &Line, run: &Running) -> Vec<u64> {
    let total: usize = run.limit[..run.tones].iter().map(|bits| usize::from(*bits)).sum();
    let mut least = vec![u64::MAX; total + 1];
    let mut bits = vec![0; run.tones];
    loop {
        let powers = (0..run.tones).map(|tone| power(line, tone, bits[tone]));
        let sum: usize = bits.iter().map(|bits| usize::from(*bits)).sum();
        least[sum] = least[sum].min(powers.sum());
        let Some(tone) = (0..run.tones).find(|&tone| bits[tone] < run.limit[tone]) else {
            return least;
        };
        bits[..tone].fill(0);
        bits[tone] += 1;
    }
}

/// The steps of all tones from one table up to another, in order.
fn steps(line: &Line, from: &[u8], to: &[u8]) -> BTreeSet<Step> {
    let mut steps = BTreeSet::new();
    for tone in 0..line.tones {
        let power = |bits| power(line, tone, bits);
        steps.extend((from[tone]..to[tone]).map(|bits| (power(bits + 1) - power(bits), tone)));
    }
    steps
}

fn held(line: &Line, run: &Running) -> BTreeSet<Step> {
    steps(line, &vec![0; line.tones], &run.bits)
}

fn free(line: &Line, run: &Running) -> BTreeSet<Step> {
    steps(line, &run.bits, &run.limit)
}

/// The two searches, against all steps of all tones; and the total power.
fn check_searches(line: &Line, run: &Running) {
    assert_eq!(run.earliest_free().as_ref(), free(line, run).first());
    assert_eq!(run.latest_held().as_ref(), held(line, run).last());
    let powers = (0..line.tones).map(|tone| power(line, tone, run.bits[tone]));
    assert_eq!(run.total_power, powers.sum());
}

/// Each tone's limit, against every number of bits up to its cap: the mask set it if
/// one of them is over the mask.
fn check_limits(line: &Line, run: &Running) {
    for number in 0..line.tones {
        let passes = |tone: &Tone, bits: u8| {
            !line.is_silenced(number)
                && line::power(tone.kind, run.powers[number].cost, bits) <= tone.mask
        };
        let largest = line.described[number]
            .and_then(|tone| (0..=tone.cap).filter(|&bits| passes(&tone, bits)).max());
        assert_eq!(run.limit[number], largest.unwrap_or(0));
        let set_by = match (largest, line.described[number]) {
            (Some(bits), Some(tone)) if bits < tone.cap => SetBy::Mask,
            (Some(_), _) => SetBy::Cap,
            (None, _) => SetBy::Silent,
        };
        assert_eq!(line.limit(number), (run.limit[number], set_by));
    }
}

/// The rule of the re-fit over all held and all free steps: how many moves it
/// makes, and what is held at its end.
fn plain_refit(line: &Line, run: &Running) -> (u64, BTreeSet<Step>) {
    let (mut held, mut free) = (held(line, run), free(line, run));
    let rests: u64 = (0..line.tones).map(|tone| power(line, tone, 0)).sum();
    for moves in 0.. {
        let power = rests + held.iter().map(|step| step.0).sum::<u64>();
        let (latest, earliest) = (held.last().copied(), free.first().copied());
        let exchange = latest.zip(earliest).is_some_and(|(latest, earliest)| earliest < latest);
        let over = power > run.budget;
        let fits = earliest.is_some_and(|step| power + step.0 <= run.budget);
        if !exchange && !over && !fits {
            return (moves, held);
        }
        if exchange || over {
            free.extend(held.pop_last());
        }
        if exchange || fits {
            free.remove(&earliest.unwrap());
            held.extend(earliest);
        }
    }
    unreachable!()
}

/// On small lines no table does better, and a re-fit ends where a loading does,
/// in as many moves as its rule makes.
#[test]
fn best_of_all_tables() {
    let mut random = Random::new(8, 0);
    let mut with_rests = 0;
    for index in 0..3_000 {
        let sheet = crate::sheets::small(7, index);
        let line = read(&sheet).unwrap();
        let mut run = Running::nothing(&line);
        check_limits(&line, &run);
        let limits = run.limit.clone();
        let least = least_powers(&line, &run);
        check_searches(&line, &run);
        with_rests += u32::from(least[0] > 0);
        while run.add() {
            assert_eq!(run.total_power, least[run.total_bits as usize]);
            check_searches(&line, &run);
        }
        assert!(run.total_power <= line.budget, "sheet {sheet:02x?}");
        let next = least.get(run.total_bits as usize + 1);
        assert!(next.is_none_or(|power| *power > line.budget), "sheet {sheet:02x?}");
        for _ in 0..4 {
            let start: Vec<u8> = limits[..line.tones]
                .iter()
                .map(|&bits| random.between(0, bits.into()) as u8)
                .collect();
            let mut refitted = Running::from_start(&line, &start).unwrap();
            let plain = plain_refit(&line, &refitted);
            check_searches(&line, &refitted);
            let mut moves = 0;
            while refitted.refit_step() {
                check_searches(&line, &refitted);
                moves += 1;
            }
            assert_eq!(refitted.bits, run.bits, "sheet {sheet:02x?} start {start:?}");
            let ended = (moves, held(&line, &refitted));
            assert_eq!(ended, plain, "sheet {sheet:02x?} start {start:?}");
        }
    }
    assert!(with_rests > 400, "{with_rests} lines with rests");
}

/// On large lines the searches find what is earliest and latest of all steps, and a re-fit
/// ends where a loading does, in as many moves as its rule makes.
#[test]
fn large_lines_by_all_steps() {
    let mut random = Random::new(8, 1);
    for index in 0..12 {
        let line = read(&crate::sheets::large(7, index)).unwrap();
        let mut run = Running::nothing(&line);
        check_limits(&line, &run);
        let limits = run.limit.clone();
        while run.add() {
            if random.once_in(200) {
                check_searches(&line, &run);
            }
        }
        check_searches(&line, &run);
        let near = |(&limit, &bits): (&u8, &u8)| match random.below(16) {
            0 => limit,
            1 => 0,
            _ => bits,
        };
        let start: Vec<u8> = limits.iter().zip(&run.bits).map(near).collect();
        let mut refitted = Running::from_start(&line, &start).unwrap();
        let plain = plain_refit(&line, &refitted);
        check_searches(&line, &refitted);
        let mut moves = 0;
        while refitted.refit_step() {
            moves += 1;
        }
        assert_eq!(refitted.bits, run.bits, "line {index}");
        assert_eq!((moves, held(&line, &refitted)), plain, "line {index}");
    }
}
