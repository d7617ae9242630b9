//! Floats of every class, as their bits, and readings made of them, from a seed.

use crate::paper::reading::{Reading, LARGEST_COST};
use crate::random::Random;

const SIGN: u32 = 1 << 31;
const LARGEST_SUBNORMAL: u32 = 0x007f_ffff;
const SMALLEST_NORMAL: u32 = 0x0080_0000;
const LARGEST: u32 = 0x7f7f_ffff;
const INFINITE: u32 = 0x7f80_0000;
/// The first bit of a mantissa: a NaN that has it is quiet.
const QUIET: u32 = 0x0040_0000;

/// A float that is finite and above zero, of any class; with any exponent, where that
/// is left open.
pub fn accepted(random: &mut Random) -> u32 {
    let subnormal = random.between(1, LARGEST_SUBNORMAL.into()) as u32;
    let normal = random.between(SMALLEST_NORMAL.into(), LARGEST.into()) as u32;
    match random.below(10) {
        0 => 1,
        1 => subnormal,
        2 => LARGEST_SUBNORMAL,
        3 => SMALLEST_NORMAL,
        4 => LARGEST,
        5 => random.pick(&[0.5_f32, 1.0, 2.0, 3.0, 65_535.0]).to_bits(),
        // A power of two, and the floats next to it.
        6 => (normal & INFINITE) + random.pick(&[0, 0, 1]),
        7 => (normal & INFINITE) - 1,
        _ => normal,
    }
}

/// A NaN: quiet or not, with any payload.
fn not_a_number(random: &mut Random) -> u32 {
    let any = random.between(1, LARGEST_SUBNORMAL.into()) as u32;
    INFINITE | random.pick(&[1, QUIET - 1, QUIET, QUIET | 1, LARGEST_SUBNORMAL, any, any])
}

/// A float that 12 refuses: a zero, an infinity, a NaN, or one below zero.
pub fn refused(random: &mut Random) -> u32 {
    let sign = random.pick(&[0, SIGN]);
    match random.below(5) {
        0 => sign,
        1 => sign | INFINITE,
        2 | 3 => sign | not_a_number(random),
        _ => SIGN | accepted(random),
    }
}

/// A reading of a ratio, or of a noise and a gain.
fn reading(ratio: bool, noise: u32, gain: u32, quotient: u32) -> Reading {
    match ratio {
        true => Reading::Ratio(quotient),
        false => Reading::NoiseAndGain(noise, gain),
    }
}

/// The reading of a whole noise and gain. Two floats are both so many times as large,
/// by a power of two, which leaves their quotient as it is.
pub fn of_whole(random: &mut Random, ratio: bool, noise: u16, gain: u16) -> Reading {
    let times = 2_f32.powi(random.between(0, 200) as i32 - 100);
    let (noise, gain) = (f32::from(noise), f32::from(gain));
    let bits = [noise * times, gain * times, noise / gain].map(f32::to_bits);
    reading(ratio, bits[0], bits[1], bits[2])
}

/// A reading whose cost is about so much: its ratio is at the float where the cost
/// changes, or at one near it, and a quotient is rounded to such a ratio.
pub fn near_cost(random: &mut Random, ratio: bool, gap: u64, cost: u64) -> Reading {
    let mut near = |float: f64, by: u64| {
        let bits = (float as f32).to_bits() + random.between(0, 2 * by) as u32;
        bits - by as u32
    };
    let quotient = near(256.0 * cost as f64 / gap as f64, 2);
    // From 2^-64 to 2^64.
    let gain = near(1.0, 1 << 29);
    let product = f64::from(f32::from_bits(quotient)) * f64::from(f32::from_bits(gain));
    reading(ratio, near(product, 1), gain, quotient)
}

/// A reading at an edge: with floats of any class, or a cost near the largest or the
/// smallest. At some gaps it costs too much.
pub fn at_edge(random: &mut Random, ratio: bool, gap: u64) -> Reading {
    let largest = random.pick(&[LARGEST_COST, LARGEST_COST + 1]);
    match random.below(6) {
        0 => near_cost(random, ratio, gap, largest),
        1 => near_cost(random, ratio, gap, 1),
        // A subnormal quotient: with a whole gain, one that may tie.
        2 => {
            let noise = random.between(1, 4 * u64::from(SMALLEST_NORMAL)) as u32;
            let gain = random.pick(&[2.0_f32, 3.0, 4.0, 6.0, 1024.0]).to_bits();
            reading(ratio, random.pick(&[noise, noise % 64 + 1]), gain, noise % SMALLEST_NORMAL + 1)
        }
        // A quotient that is just infinite or just not, or far beyond.
        3 => {
            let noise = LARGEST - random.between(0, 2) as u32;
            let gain = 1.0_f32.to_bits() - random.between(0, 2) as u32;
            reading(ratio, noise, random.pick(&[gain, gain, 1, SMALLEST_NORMAL]), noise)
        }
        _ => reading(ratio, accepted(random), accepted(random), accepted(random)),
    }
}

#[cfg(test)]
mod tests {
    use super::*;
    use crate::paper::reading::is_accepted;
    use std::collections::BTreeSet;

    /// Zero, subnormal, normal, infinite, NaN that is not quiet, quiet NaN; and the sign.
    fn class(bits: u32) -> (u8, bool) {
        let class = match bits & !SIGN {
            0 => 0,
            1..=LARGEST_SUBNORMAL => 1,
            SMALLEST_NORMAL..=LARGEST => 2,
            INFINITE => 3,
            magnitude if magnitude & QUIET == 0 => 4,
            _ => 5,
        };
        (class, bits & SIGN != 0)
    }

    #[test]
    fn every_class() {
        let mut random = Random::new(3, 0);
        let mut classes = BTreeSet::new();
        for _ in 0..10_000 {
            let (good, bad) = (accepted(&mut random), refused(&mut random));
            assert!(is_accepted(good) && !is_accepted(bad), "{good:08x}, {bad:08x}");
            classes.extend([class(good), class(bad)]);
        }
        assert_eq!(classes.len(), 12);
    }

    fn floats(reading: Reading) -> Vec<u32> {
        match reading {
            Reading::NoiseAndGain(noise, gain) => vec![noise, gain],
            Reading::Ratio(ratio) => vec![ratio],
        }
    }

    /// Readings near a cost have it, or the next; the costs at the end are both met and
    /// passed.
    #[test]
    fn costs_that_are_asked_for() {
        let mut random = Random::new(4, 0);
        let (mut at_largest, mut over) = (0, 0);
        for index in 0..20_000 {
            let gap = random.pick(&[256, 257, 4_057, 65_535]);
            let ratio = index % 2 == 0;
            let due = random.sized(1 << 20).max(1);
            let reading = near_cost(&mut random, ratio, gap, due);
            assert!(floats(reading).into_iter().all(is_accepted));
            let cost = reading.cost(gap).expect("a cost within the range");
            assert!((due..=due + 1).contains(&cost), "{reading:?} at gap {gap} costs {cost}");
            match near_cost(&mut random, ratio, gap, LARGEST_COST).cost(gap) {
                None => over += 1,
                Some(LARGEST_COST) => at_largest += 1,
                Some(_) => {}
            }
        }
        assert!(at_largest > 2_000 && over > 2_000, "{at_largest} at the largest, {over} over");
    }

    /// Quotients of every class: those that tie, vanish and overflow among them.
    #[test]
    fn every_class_of_quotient() {
        let mut random = Random::new(5, 0);
        let mut counts = [0; 4];
        let mut ties = 0;
        for _ in 0..20_000 {
            let reading = at_edge(&mut random, false, 256);
            let [noise, gain] = floats(reading)[..] else { unreachable!() };
            assert!(is_accepted(noise) && is_accepted(gain), "{reading:?}");
            let quotient = f32::from_bits(noise) / f32::from_bits(gain);
            counts[usize::from(class(quotient.to_bits()).0)] += 1;
            ties += u32::from(noise < SMALLEST_NORMAL && noise % 2 == 1 && gain == 0x4000_0000);
        }
        assert!(counts.iter().all(|&count| count > 500) && ties > 100, "{counts:?}, {ties} ties");
    }

    /// A whole noise and gain cost as much as 04's, where the quotient is a float.
    #[test]
    fn whole_numbers() {
        let mut random = Random::new(6, 0);
        for index in 0..10_000 {
            let noise = random.between(1, 65_535) as u16;
            let gain = 1 << random.below(16);
            let gap = random.between(256, 65_535);
            let reading = of_whole(&mut random, index % 2 == 0, noise, gain);
            let due = crate::paper::line::cost(gap, noise, gain);
            assert_eq!(reading.cost(gap), Some(due), "{reading:?}");
        }
    }
}
