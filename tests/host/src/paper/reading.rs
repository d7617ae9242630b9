//! A pair tone as the line analyser gives it, and its cost: one division of the host's
//! own 32-bit floats, and then whole numbers.

/// The largest cost that a tone may have.
pub const LARGEST_COST: u64 = 16_776_705;

/// "each pair tone either as noise and gain or as their ratio". A float is kept as its
/// bits, since they belong to the line.
#[derive(Clone, Copy, Debug, PartialEq, Eq)]
pub enum Reading {
    /// Command 09.
    NoiseAndGain(u32, u32),
    /// Command 0A.
    Ratio(u32),
}

/// "12, a float is not finite or not above zero".
pub fn is_accepted(bits: u32) -> bool {
    let float = f32::from_bits(bits);
    float.is_finite() && float > 0.0
}

/// A float that is zero or above it, and finite, as mantissa × 2^exponent.
fn parts(float: f32) -> (u64, i32) {
    let (mantissa, exponent) = (float.to_bits() & 0x007f_ffff, float.to_bits() >> 23);
    match exponent {
        // Zero and the subnormals have no leading 1, and the exponent of the smallest normal.
        0 => (mantissa.into(), -149),
        _ => (u64::from(mantissa | 0x0080_0000), exponent as i32 - 150),
    }
}

/// The larger of 1 and the smallest whole number not below gap × ratio / 256; none if
/// it is over the largest cost.
fn cost(gap: u64, ratio: f32) -> Option<u64> {
    let (mantissa, exponent) = parts(ratio);
    // Below 2^40, and gap × ratio / 256 is this × 2^shift.
    let product = u128::from(gap * mantissa);
    let shift = exponent - 8;
    let least = match shift {
        // Such a ratio is normal, so its product is not 0.
        64.. => return None,
        0..=63 => product << shift,
        -63..=-1 => (product + (1 << -shift) - 1) >> -shift,
        // No more than a small part of 1.
        _ => 1,
    };
    let cost = least.max(1) as u64;
    (least <= LARGEST_COST.into()).then_some(cost)
}

impl Reading {
    /// "For 09 the ratio is the one float quotient, rounded once, to nearest."
    fn ratio(self) -> f32 {
        match self {
            Reading::NoiseAndGain(noise, gain) => f32::from_bits(noise) / f32::from_bits(gain),
            Reading::Ratio(ratio) => f32::from_bits(ratio),
        }
    }

    /// The cost at a gap, where 13 does not refuse the reading; its floats are accepted.
    pub fn cost(self, gap: u64) -> Option<u64> {
        let ratio = self.ratio();
        if ratio.is_infinite() {
            return None;
        }
        cost(gap, ratio)
    }
}

#[cfg(test)]
mod tests {
    use super::*;
    use crate::random::Random;

    /// 2^-149, and the largest subnormal; the smallest normal, and the largest.
    const CLASS_ENDS: [u32; 4] = [1, 0x007f_ffff, 0x0080_0000, 0x7f7f_ffff];

    fn of_ratio(gap: u64, ratio: f32) -> Option<u64> {
        Reading::Ratio(ratio.to_bits()).cost(gap)
    }

    fn of_both(gap: u64, noise: f32, gain: f32) -> Option<u64> {
        Reading::NoiseAndGain(noise.to_bits(), gain.to_bits()).cost(gap)
    }

    fn next_up(float: f32) -> f32 {
        f32::from_bits(float.to_bits() + 1)
    }

    fn next_down(float: f32) -> f32 {
        f32::from_bits(float.to_bits() - 1)
    }

    #[test]
    fn floats_above_zero() {
        for bits in CLASS_ENDS {
            assert!(is_accepted(bits));
            assert!(!is_accepted(1 << 31 | bits));
        }
        for bits in [0, 0x7f80_0000, 0x7f80_0001, 0x7fbf_ffff, 0x7fc0_0000, 0x7fff_ffff] {
            assert!(!is_accepted(bits));
            assert!(!is_accepted(1 << 31 | bits));
        }
    }

    #[test]
    fn costs_of_ratios() {
        for (ratio, due) in [
            (1.0, 1),
            (next_up(1.0), 2),
            (next_down(1.0), 1),
            (1.5, 2),
            (2.0, 2),
            (3.0, 3),
            (0.1, 1),
            (65_535.0, 65_535),
            (8_388_607.5, 8_388_608),
            (8_388_608.0, 8_388_608),
            (f32::from_bits(CLASS_ENDS[0]), 1),
            (f32::from_bits(CLASS_ENDS[1]), 1),
            (f32::from_bits(CLASS_ENDS[2]), 1),
        ] {
            assert_eq!(of_ratio(256, ratio), Some(due), "{ratio}");
        }
        assert_eq!(of_ratio(257, 1.0), Some(2));
        assert_eq!(of_ratio(65_535, 1.0), Some(256));
        assert_eq!(of_ratio(65_535, 1.0 / 256.0), Some(1));
        assert_eq!(of_ratio(512, 0.5), Some(1));
        assert_eq!(of_ratio(512, next_up(0.5)), Some(2));
    }

    /// The largest cost, and the next float up, at both ends of the gap and between.
    #[test]
    fn largest_cost() {
        assert_eq!(of_ratio(256, 16_776_705.0), Some(LARGEST_COST));
        assert_eq!(of_ratio(256, 16_776_706.0), None);
        assert_eq!(of_ratio(65_535, 65_535.0), Some(LARGEST_COST));
        assert_eq!(of_ratio(65_535, next_up(65_535.0)), None);
        assert_eq!(of_ratio(512, 8_388_352.5), Some(LARGEST_COST));
        assert_eq!(of_ratio(512, 8_388_353.0), None);
        assert_eq!(of_ratio(512, 8_388_352.0), Some(LARGEST_COST - 1));
        for exponent in 25..=127 {
            assert_eq!(of_ratio(256, 2.0_f32.powi(exponent)), None);
        }
        assert_eq!(of_ratio(256, f32::MAX), None);
        assert_eq!(of_ratio(65_535, f32::MAX), None);
    }

    #[test]
    fn costs_of_quotients() {
        let (smallest, largest) = (f32::from_bits(CLASS_ENDS[0]), f32::MAX);
        for (noise, gain, due) in [
            (3.0, 2.0, Some(2)),
            (4.0, 2.0, Some(2)),
            (7.0, 2.0, Some(4)),
            (largest, largest, Some(1)),
            (smallest, smallest, Some(1)),
            (next_up(smallest), smallest, Some(2)),
            // Infinite, and 0.
            (largest, smallest, None),
            (largest, 0.5, None),
            (smallest, largest, Some(1)),
            (smallest, 2.0, Some(1)),
            (largest, 1.0, None),
            (16_776_705.0, 1.0, Some(LARGEST_COST)),
            (16_776_706.0, 1.0, None),
        ] {
            assert_eq!(of_both(256, noise, gain), due, "{noise} over {gain}");
        }
        assert_eq!(of_both(65_535, 65_535.0, 1.0), Some(LARGEST_COST));
    }

    /// The cost is that of the rounded quotient, where the exact one's is another.
    #[test]
    fn rounded_before_the_cost() {
        for (gap, noise, gain, exact, due) in [
            // Over 3 by less than half of the last place.
            (256, next_up(next_up(3.0)), next_up(1.0), 4, 3),
            (300, 512.0, 10.0, 60, 61),
            (300, 1344.0, 315.0, 5, 6),
            (65_535, 1791.0, 409.0, 1122, 1121),
            (65_535, 1795.0, 279.0, 1647, 1648),
        ] {
            // To the last place of a float whose last place is 2^-23 at most.
            let whole = |float: f32| (f64::from(float) * f64::from(1 << 23)) as u64;
            let exactly = (gap * whole(noise)).div_ceil(256 * whole(gain));
            let due = (exact, Some(due));
            assert_eq!((exactly, of_both(gap, noise, gain)), due, "{gap}, {noise} over {gain}");
        }
    }

    /// Ties go to even: only quotients that are subnormal can tie.
    #[test]
    fn ties_to_even() {
        for (noise, rounded) in [(1, 0), (3, 2), (5, 2), (7, 4), (9, 4)] {
            let reading = Reading::NoiseAndGain(noise, 2.0_f32.to_bits());
            assert_eq!(reading.ratio().to_bits(), rounded);
            assert_eq!(reading.cost(65_535), Some(1));
        }
    }

    /// Against 64-bit floats, in which gap × ratio / 256 is exact: 16 and 24 bits make 40.
    #[test]
    fn against_wider_floats() {
        let mut random = Random::new(9, 0);
        let mut granted = 0;
        for index in 0..400_000 {
            let any = random.between(256, 65_535);
            let gap = random.pick(&[256, 257, 65_535, any]);
            // Half of them where costs are neither 1 nor too large.
            let exponent = match index % 2 {
                0 => random.between(0, 254),
                _ => random.between(119, 151),
            };
            let mantissa = match random.below(4) {
                0 => 0,
                1 => 1 << random.below(23),
                _ => random.between(0, 0x007f_ffff),
            };
            let bits = ((exponent << 23) | mantissa) as u32;
            let exact = gap as f64 * f64::from(f32::from_bits(bits)) / 256.0;
            let due = exact.ceil().max(1.0);
            let due = (due <= LARGEST_COST as f64).then_some(due as u64);
            assert_eq!(cost(gap, f32::from_bits(bits)), due, "gap {gap}, bits {bits:08x}");
            granted += u32::from(due.is_some_and(|cost| cost > 1));
        }
        assert!(granted > 100_000, "{granted} costs above 1");
    }
}
