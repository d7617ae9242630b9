//! The independent loader on noises known only as ranges: document 02's request W9, by hand.

use super::guarded::guarded;
use super::line::{read, LARGEST_POWER};
use super::sample::Outcome;
use super::sample::{and, bits, outcome, reading, refusal, rest, sample, value, with_tones};
use super::twins::{pair, same, sheet, tidied, twin};
use super::*;
use crate::sheets::RANGES;

/// 0C of a tone.
fn high(tone: u8, noise: u16) -> Vec<u8> {
    [&[12, tone][..], &noise.to_be_bytes()].concat()
}

/// What the guarded loading of a sheet of three tones leaves.
fn guarded_of(sheet: &[u8]) -> Outcome {
    outcome(|table, answer| guarded(sheet, table, answer))
}

/// The sample with noises from 3 to 5, of 5 and from 1 to 2: at the high ones its costs are
/// 5, 5 and 2, its limits 4, 2 and 2, and its steps in order 5, 5, 6, 10, 10, 20, 24 and 40.
/// At the low ones it is the sample.
fn ranged(budget: u64) -> Vec<u8> {
    and(budget, &[high(2, 2), high(0, 5), high(1, 5)])
}

#[test]
fn guarded_sample() {
    for (budget, bits, powers, answers) in [
        (0, [0; 3], [0; 3], [0, 0, 0]),
        (4, [0; 3], [0; 3], [0, 0, 1]),
        (5, [1, 0, 0], [5, 0, 0], [1, 5, 1]),
        (10, [1, 1, 0], [5, 5, 0], [2, 10, 2]),
        (16, [1, 1, 1], [5, 5, 6], [3, 16, 3]),
        (35, [2, 1, 1], [15, 5, 6], [4, 26, 5]),
        (39, [2, 2, 1], [15, 15, 6], [5, 36, 6]),
        (51, [2, 2, 1], [15, 15, 6], [5, 36, 7]),
        (119, [3, 2, 2], [35, 15, 30], [7, 80, 8]),
        (120, [4, 2, 2], [75, 15, 30], [8, 120, 8]),
        (LARGEST_POWER, [4, 2, 2], [75, 15, 30], [8, 120, 10]),
    ] {
        assert_eq!(guarded_of(&ranged(budget)), (0, bits, powers, answers), "budget {budget}");
    }
}

/// The sheet of seed 0: 29 of 38 at the high noises, 30 at the low ones.
#[test]
fn guarded_seed_0() {
    assert_eq!(guarded_of(&RANGES), (0, [2, 1, 1], [15, 9, 5], [4, 29, 5]));
    let plain = outcome(|table, answer| load_most(&RANGES, table, answer));
    assert_eq!(plain, (0, [2, 1, 2], [9, 6, 15], [5, 30, 0]));
}

/// Without high noises, or where each is the noise, it is the loading for most bits.
#[test]
fn guarded_without_ranges() {
    let equal = [high(0, 3), high(1, 5), high(2, 1)];
    for budget in [0, 3, 38, 39, 51, 170, 171] {
        let plain = outcome(|table, answer| load_most(&sample(budget), table, answer));
        let (_, bits, powers, [total, power, _]) = plain;
        for sheet in [sample(budget), and(budget, &equal)] {
            assert_eq!(guarded_of(&sheet), (0, bits, powers, [total, power, total]));
        }
    }
}

/// Rests of 2 and 1 stay at the high noises, where the first steps are 3, 4 and 6, as at the
/// low ones, where they are 1, 4 and 3; a silenced tone has neither rest nor bits.
#[test]
fn guarded_rests_and_silences() {
    let (rests, highs) = ([rest(0, 2), rest(1, 1)], [high(0, 5), high(2, 2)]);
    let orders = [[&rests[..], &highs].concat(), [&highs[..], &rests].concat()];
    for commands in orders {
        let of = |budget| guarded_of(&and(budget, &commands));
        assert_eq!(of(2), (16 << 32, [0; 3], [0; 3], [0; 3]));
        assert_eq!(of(3), (0, [0; 3], [2, 1, 0], [0, 3, 0]));
        assert_eq!(of(5), (0, [0; 3], [2, 1, 0], [0, 3, 1]));
        assert_eq!(of(6), (0, [1, 0, 0], [5, 1, 0], [1, 6, 1]));
        assert_eq!(of(10), (0, [1, 1, 0], [5, 5, 0], [2, 10, 2]));
        assert_eq!(of(16), (0, [1, 1, 1], [5, 5, 6], [3, 16, 3]));
        let silenced = [&commands[..], &[vec![6, 0, 0, 0, 0, 1]]].concat();
        assert_eq!(guarded_of(&and(39, &silenced)), (0, [0, 2, 1], [0, 15, 6], [3, 21, 4]));
    }
}

/// One tone, by 04 with noise and gain, at a gap of 10 dB.
fn one_tone(noise: u16, gain: u8, budget: u64, high: &[u8]) -> Vec<u8> {
    let [first, second] = noise.to_be_bytes();
    let tone = [4, 0, first, second, 0, gain, 15, 0, 0, 0x80, 0, 0, 0, 0, 0];
    [&[1, 0, 1, 8, 100, 3][..], &budget.to_be_bytes(), &tone, high, &[7]].concat()
}

/// Costs are at the sheet's own gap, and round up at each noise by itself.
#[test]
fn guarded_costs() {
    for (noise, gain, highest, budget, due) in [
        // 30 at the noise, 50 at the high one.
        (3, 1, 5, 49, [0, 0, 1]),
        (3, 1, 5, 50, [1, 50, 1]),
        // 34 and 35: 33.3 and 34.4, rounded up at each.
        (100, 30, 103, 34, [0, 0, 1]),
        (100, 30, 103, 35, [1, 35, 1]),
        // Both 34.
        (100, 30, 102, 34, [1, 34, 1]),
        // 10 and the largest at this gap.
        (1, 1, 65_535, 655_349, [0, 0, 15]),
        (1, 1, 65_535, 655_350, [1, 655_350, 15]),
        (65_535, 1, 65_535, LARGEST_POWER, [15, 655_350 * 32_767, 15]),
    ] {
        let sheet = one_tone(noise, gain, budget, &high(0, highest));
        let (mut table, mut answer) = ([0; 9], [0; 24]);
        assert_eq!(guarded(&sheet, &mut table, &mut answer), 0);
        let answers = [value(&answer), value(&answer[8..]), value(&answer[16..])];
        assert_eq!(answers, due, "noise {noise} to {highest}, gain {gain}, budget {budget}");
        assert_eq!((u64::from(table[0]), value(&table[1..])), (due[0], due[1]));
    }
}

/// "All other loadings ignore 0C", and so do a check and the limits.
#[test]
fn other_calls_ignore_high_noises() {
    use crate::calls::Call;
    let list: Vec<u8> = [3_u64, 39, 171].iter().flat_map(|budget| budget.to_be_bytes()).collect();
    for budget in [0, 3, 38, 39, 51, 171, LARGEST_POWER] {
        let (with, without) = (ranged(budget), sample(budget));
        assert_eq!(printed(&with), printed(&without));
        for call in Call::ALL.into_iter().filter(|call| !matches!(call, Call::Tidy | Call::Guarded))
        {
            let source = if call == Call::Budgets { &list[..] } else { &[0, 2, 3] };
            let [with, without] = [&with, &without].map(|sheet| {
                let (mut written, mut answer) = ([238; 40], [238; 24]);
                let returned = call.papers(sheet, source, 1, &mut written, &mut answer);
                (returned, written, answer)
            });
            assert_eq!(with, without, "{}", call.name());
        }
    }
}

/// 9 bytes a tone, and bytes past those stay; 8 under those, or under 24 for the answers,
/// after the refusals of the sheet.
#[test]
fn guarded_room() {
    let call = |sheet: &[u8], room: usize, answers: usize| {
        let (mut table, mut answer) = (vec![238; room], vec![238; answers]);
        let returned = guarded(sheet, &mut table, &mut answer);
        assert!(returned == 0 || table.iter().chain(&answer).all(|byte| *byte == 238));
        (returned, table, answer)
    };
    let sheet = ranged(39);
    for (room, answers) in [(0, 24), (26, 24), (27, 23), (27, 0), (0, 0)] {
        assert_eq!(call(&sheet, room, answers).0, 8 << 32);
        let over = and(2, &[rest(0, 2), rest(1, 1), high(0, 9)]);
        assert_eq!(call(&over, room, answers).0, 16 << 32);
        assert_eq!(call(&sheet[..10], room, answers).0, 2 << 32 | 10);
    }
    let (returned, table, answer) = call(&sheet, 30, 26);
    assert_eq!((returned, &table[27..], &answer[24..]), (0, &[238; 3][..], &[238; 2][..]));
    assert_eq!((table[0], value(&answer[16..])), (2, 6));
}

/// A high noise as large as the noise and none are one line, and not one with a range.
#[test]
fn high_noise_as_large() {
    let equal = and(39, &[high(0, 3), same(&high(1, 5)), high(2, 1)]);
    assert_eq!(read(&equal), read(&sample(39)));
    assert_eq!(tidied(&equal), sample(39));
    assert_ne!(read(&and(39, &[high(0, 4)])), read(&sample(39)));
    assert_ne!(read(&and(39, &[high(0, 4)])), read(&and(39, &[high(0, 5)])));
}

/// A high noise is tidied to stand after its tone's rest, and one as large as the noise is
/// dropped.
#[test]
fn tidying_high_noises() {
    let sheet = sample(39);
    let [first, second] = [[rest(0, 2), high(0, 5)].concat(), [rest(1, 1), high(1, 9)].concat()];
    let due = [&sheet[..30], &first, &sheet[30..45], &second, &sheet[45..]].concat();
    let alone = [&sheet[..30], &high(0, 65_535), &sheet[30..]].concat();
    let silence = vec![6, 0, 0, 0, 0, 1];
    let silenced = [&alone[..alone.len() - 1], &silence, &[7]].concat();
    for (untidy, due) in [
        (and(39, &[high(1, 9), rest(0, 2), high(0, 5), rest(1, 1), high(2, 1)]), &due),
        (and(39, &[rest(0, 2), rest(1, 1), high(0, 5), rest(2, 0), high(1, 9)]), &due),
        (due.clone(), &due),
        (and(39, &[rest(0, 0), high(0, 65_535), high(1, 5)]), &alone),
        (and(39, &[silence.clone(), high(0, 65_535)]), &silenced),
    ] {
        assert_eq!(&tidied(&untidy), due);
        assert_eq!(read(due), read(&untidy));
    }
}

/// "Tidying uses the short command for tones up to 255", for a high noise too.
#[test]
fn tidying_high_noises_at_255() {
    let (tone, rest, high) = (pair(255, 3, 7), rest(255, 2), high(255, 9));
    let untidy = [
        twin(&tone, 256),
        twin(&high, 256),
        same(&tone),
        same(&high),
        same(&rest),
        twin(&rest, 256),
    ];
    let tidy = [
        tone.clone(),
        rest.clone(),
        high.clone(),
        twin(&tone, 256),
        twin(&rest, 256),
        twin(&high, 256),
    ];
    assert_eq!(tidied(&sheet(257, 9, &untidy)), sheet(257, 9, &tidy));
    assert_eq!(sheet(257, 9, &tidy).len(), 16 + 15 + 6 + 4 + 16 + 7 + 5);
}

/// 5 at the tone, then 14 there, then 4 at the high noise; the sample's noises are 3, 5 and 1,
/// and the commands stand from byte 60 on.
#[test]
fn high_noises_refused() {
    let twin_3 = |noise| same(&high(3, noise));
    let twin_256 = twin(&high(0, 9), 256);
    for (commands, due) in [
        (vec![high(0, 3), high(1, 5), high(2, 1)], (0, 0)),
        (vec![high(0, 65_535), same(&high(1, 65_535)), high(2, 256)], (0, 0)),
        (vec![high(0, 2)], (4, 62)),
        (vec![high(1, 4)], (4, 62)),
        (vec![high(2, 0)], (4, 62)),
        (vec![same(&high(0, 2))], (4, 63)),
        (vec![high(0, 4), same(&high(1, 0))], (4, 67)),
        (vec![high(3, 9)], (5, 61)),
        (vec![high(3, 0)], (5, 61)),
        (vec![high(255, 0)], (5, 61)),
        (vec![twin_3(9)], (5, 61)),
        (vec![twin_3(0)], (5, 61)),
        (vec![twin_256], (5, 61)),
        (vec![high(0, 5), high(0, 5)], (14, 65)),
        (vec![high(0, 3), high(0, 3)], (14, 65)),
        (vec![high(0, 3), high(0, 2)], (14, 65)),
        (vec![high(0, 5), same(&high(0, 5))], (14, 65)),
        (vec![high(0, 3), same(&high(0, 0))], (14, 65)),
        (vec![same(&high(0, 3)), high(0, 3)], (14, 66)),
        (vec![same(&high(0, 5)), same(&high(0, 2))], (14, 66)),
        (vec![high(0, 5), high(1, 5), high(0, 9)], (14, 69)),
        (vec![high(0, 2), high(0, 5)], (4, 62)),
    ] {
        assert_eq!(refusal(&and(39, &commands)), due, "{commands:02x?}");
    }
}

/// Before the tone is described, and of one that is not: 14, whatever the noise is.
#[test]
fn high_noises_of_undescribed_tones() {
    let sheet = sample(39);
    for noise in [0, 4, 5, 65_535] {
        for high in [high(1, noise), same(&high(1, noise))] {
            let early = |place: usize| [&sheet[..place], &high, &sheet[place..]].concat();
            assert_eq!(refusal(&early(15)), (14, 16));
            assert_eq!(refusal(&early(30)), (14, 31));
            let undescribed = [&sheet[..30], &sheet[45..60], &high, &[7]].concat();
            assert_eq!(refusal(&undescribed), (14, 46));
        }
    }
    let straight = [&sheet[..45], &high(1, 5), &sheet[45..]].concat();
    assert_eq!(refusal(&straight), (0, 0));
}

/// 4 at the tone where 09 or 0A described it, or a twin, before the noise is judged.
#[test]
fn high_noises_of_readings() {
    let ratio = reading(0, &bits(&[3.0]), 15, 100);
    let both = reading(0, &bits(&[6.0, 2.0]), 15, 100);
    for tone in [&ratio, &both, &same(&ratio), &same(&both)] {
        // The tones that follow, of 30 bytes, and the end.
        let sheet = with_tones(39, 256, std::slice::from_ref(tone));
        let place = 15 + tone.len() + 30;
        assert_eq!(sheet.len(), place + 1);
        for noise in [0, 2, 3, 65_535] {
            for high in [high(0, noise), same(&high(0, noise))] {
                let refused = [&sheet[..place], &high, &high, &[7]].concat();
                assert_eq!(refusal(&refused), (4, place + 1));
            }
        }
        let other = [&sheet[..place], &high(1, 5), &[7]].concat();
        assert_eq!(refusal(&other), (0, 0));
    }
}

/// 0C and 0B do not count for each other, and 15 and 16 go by the noise.
#[test]
fn high_noises_and_rests() {
    for (budget, commands, due) in [
        (39, vec![high(0, 9), rest(0, 2)], (0, 0)),
        (39, vec![rest(0, 2), high(0, 9)], (0, 0)),
        (39, vec![high(0, 9), rest(0, 3)], (15, 66)),
        (39, vec![same(&high(0, 9)), same(&rest(0, 3))], (15, 68)),
        (39, vec![rest(0, 2), high(0, 5), rest(0, 2)], (14, 71)),
        (39, vec![high(0, 5), rest(0, 2), high(0, 5)], (14, 71)),
        (39, vec![rest(0, 0), high(0, 2)], (4, 68)),
        (3, vec![rest(0, 2), rest(1, 1), high(0, 65_535)], (0, 0)),
        (2, vec![rest(0, 2), rest(1, 1), high(0, 65_535)], (16, 0)),
    ] {
        assert_eq!(refusal(&and(budget, &commands)), due, "{commands:02x?}");
    }
}

/// 0C stands where 04 stands and nowhere else, and has all its bytes: 2 comes first.
#[test]
fn places_of_high_noises() {
    let sheet = sample(39);
    for new in [high(3, 0), twin(&high(3, 0), 0xffff), high(0, 2)] {
        for place in [0, 3, 6] {
            let early = [&sheet[..place], &new, &sheet[place..]].concat();
            assert_eq!(refusal(&early), (3, place));
        }
        for length in 1..new.len() {
            let cut = [&sheet[..60], &new[..length]].concat();
            assert_eq!(refusal(&cut), (2, 60 + length));
        }
        assert_eq!(refusal(&[&sheet[..], &new].concat()), (7, 61));
    }
}

/// A full line with a rest and a high noise on each tone: it costs 2 and, at the high noise,
/// 4, and its rest is 1. The lower tones come first, across 256.
#[test]
fn guarded_full_line() {
    let with = |number: u16| match u8::try_from(number) {
        Ok(byte) => [pair(byte, 2, 15), rest(byte, 1), high(byte, 4)].concat(),
        Err(_) => {
            [pair(0, 2, 15), rest(0, 1), high(0, 4)].map(|short| twin(&short, number)).concat()
        }
    };
    let tones: Vec<Vec<u8>> = (0..1024).map(with).collect();
    for carried in [255, 256, 257] {
        let full = sheet(1024, 1024 + 3 * carried, &tones);
        assert_eq!((full.len(), &tidied(&full)), (16 + 1024 * 25 + 3 * 768, &full));
        let (mut table, mut answer) = (vec![0; 9 * 1024], [0; 24]);
        assert_eq!(guarded(&full, &mut table, &mut answer), 0);
        let answers = [value(&answer), value(&answer[8..]), value(&answer[16..])];
        assert_eq!(answers, [carried, 1024 + 3 * carried, 3 * carried]);
        let entry = |tone: u64| (table[9 * tone as usize], value(&table[9 * tone as usize + 1..]));
        assert_eq!((entry(carried - 1), entry(carried)), ((1, 4), (0, 1)));
    }
}
