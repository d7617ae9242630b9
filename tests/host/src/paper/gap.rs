//! The gap of a line as its sheet gives it. What a number of tenths of a decibel
//! comes to is worked out from its rule, with whole numbers of any length.

use std::cmp::Ordering;
use std::sync::OnceLock;

/// The most tenths of a decibel that command 08 may give.
pub const MOST_TENTHS: u8 = 240;

/// Which command gave the gap, 02 or 08, belongs to the line.
#[derive(Clone, Copy, Debug, PartialEq, Eq)]
pub enum Gap {
    Whole(u16),
    /// From 0 to 240.
    Tenths(u8),
}

impl Gap {
    /// The gap in 1/256.
    pub fn value(self) -> u64 {
        match self {
            Gap::Whole(gap) => gap.into(),
            Gap::Tenths(tenths) => in_tenths()[usize::from(tenths)],
        }
    }

    /// How many bytes its command has.
    pub fn length(self) -> usize {
        match self {
            Gap::Whole(_) => 3,
            Gap::Tenths(_) => 2,
        }
    }
}

/// A whole number as parts of 32 bits, the lowest first and the highest not 0.
#[derive(PartialEq, Eq)]
struct Long(Vec<u32>);

impl Long {
    /// The number times a factor, so many times over.
    fn times(mut self, factor: u32, over: u32) -> Long {
        for _ in 0..over {
            let mut carry = 0;
            for part in &mut self.0 {
                carry += u64::from(*part) * u64::from(factor);
                *part = carry as u32;
                carry >>= 32;
            }
            if carry > 0 {
                self.0.push(carry as u32);
            }
        }
        self
    }

    fn power_100(base: u32) -> Long {
        Long(vec![1]).times(base, 100)
    }

    fn compare(&self, other: &Long) -> Ordering {
        let by_length = self.0.len().cmp(&other.0.len());
        by_length.then_with(|| self.0.iter().rev().cmp(other.0.iter().rev()))
    }
}

/// The smallest whole g with g^100 at least 256^100 × 10^d.
fn smallest(tenths: u8) -> u64 {
    let least = Long::power_100(256).times(10, tenths.into());
    // Whether g is large enough is asked of ever fewer: no at low, yes at high.
    let (mut low, mut high) = (1, 1 << 16);
    while high - low > 1 {
        let middle = (low + high) / 2;
        match Long::power_100(middle).compare(&least) {
            Ordering::Less => low = middle,
            _ => high = middle,
        }
    }
    high.into()
}

/// The gaps of 0 to 240 tenths, worked out once.
fn in_tenths() -> &'static [u64] {
    static GAPS: OnceLock<Vec<u64>> = OnceLock::new();
    GAPS.get_or_init(|| (0..=MOST_TENTHS).map(smallest).collect())
}

#[cfg(test)]
mod tests {
    use super::*;

    /// "d = 0 gives 256, d = 100 gives 2,560 and d = 200 gives 25,600."
    #[test]
    fn whole_tens_of_decibels() {
        for (tenths, gap) in [(0, 256), (100, 2_560), (200, 25_600)] {
            assert_eq!(Gap::Tenths(tenths).value(), gap);
        }
    }

    /// Each is large enough, one less is not, and 02 could give it.
    #[test]
    fn every_tenth_by_its_rule() {
        for tenths in 0..=MOST_TENTHS {
            let least = Long::power_100(256).times(10, tenths.into());
            let gap = Gap::Tenths(tenths).value() as u32;
            assert!((256..=65_535).contains(&gap), "{tenths} tenths are {gap}");
            assert_ne!(Long::power_100(gap).compare(&least), Ordering::Less);
            assert_eq!(Long::power_100(gap - 1).compare(&least), Ordering::Less);
        }
    }

    /// Long numbers against those of the machine.
    #[test]
    fn long_numbers() {
        let long = |number: u128| {
            let parts = (0..4).map(|part| (number >> (32 * part)) as u32);
            let mut parts: Vec<u32> = parts.collect();
            while parts.last() == Some(&0) {
                parts.pop();
            }
            Long(parts)
        };
        let numbers = [1, 10, (1 << 32) - 1, 1 << 32, (1 << 32) + 1, (7 << 64) + 5, 9 << 64];
        for number in numbers {
            for factor in [1, 10, 65_535, u32::MAX] {
                let product = number * u128::from(factor);
                assert!(long(number).times(factor, 1) == long(product));
                for other in numbers {
                    let compared = long(product).compare(&long(other));
                    assert_eq!(compared, product.cmp(&other));
                }
            }
        }
    }
}
