//! Lists of budgets from a seed, for a line: at powers where its loading changes, at its
//! rests, at its own budget, at ends and any; and damaged ones.

use crate::paper::budgets::{BYTES_A_BUDGET, MOST_BUDGETS};
use crate::paper::line::{Line, LARGEST_POWER};
use crate::paper::run::Running;
use crate::random::Random;

/// So many scanned tones are as much as the loadings for one list mostly take.
const MOST_SCANNED: usize = 1_000_000;

pub fn to_bytes(budgets: &[u64]) -> Vec<u8> {
    budgets.iter().flat_map(|budget| budget.to_be_bytes()).collect()
}

/// The total powers of a table as it is loaded from where it is to the end.
pub fn powers(run: &mut Running) -> Vec<u64> {
    let mut powers = vec![run.total_power];
    while run.add() {
        powers.push(run.total_power);
    }
    powers
}

/// What the budgets of a list are taken from.
pub struct Around {
    rests: u64,
    budget: u64,
    /// Of the line as it is loaded, whatever its own budget.
    powers: Vec<u64>,
    /// How many loadings may be made, but once in so many lists.
    loadings: usize,
    but_once_in: usize,
}

impl Around {
    pub fn line(line: &Line, powers: Vec<u64>) -> Around {
        let loadings = MOST_SCANNED / (line.tones * powers.len());
        let but_once_in = if line.tones > 256 { 4 } else { 40 };
        let (rests, budget) = (line.sum_of_rests(), line.budget);
        Around { rests, budget, powers, loadings, but_once_in }
    }

    /// Around nothing: the sheet is refused.
    pub fn any(random: &mut Random) -> Around {
        let powers = vec![0, random.sized(LARGEST_POWER)];
        Around { rests: 0, budget: 0, powers, loadings: MOST_BUDGETS, but_once_in: 40 }
    }

    fn budget(&self, random: &mut Random) -> u64 {
        let near = match random.below(9) {
            0 => return random.pick(&[0, 1, LARGEST_POWER - 1, LARGEST_POWER]),
            1 => return random.sized(LARGEST_POWER),
            2 => self.rests,
            3 => self.budget,
            4 => self.powers[self.powers.len() - 1],
            _ => random.pick(&self.powers),
        };
        let near = [near, near + 1, near.saturating_sub(1)];
        random.pick(&near).min(LARGEST_POWER)
    }

    /// So many budgets, none below the one before it.
    fn rising(&self, random: &mut Random, count: usize) -> Vec<u64> {
        let last = self.powers.len() - 1;
        let from = random.below(self.powers.len());
        let one_less = random.below(2) as u64;
        let mut budgets: Vec<u64> = match random.below(8) {
            0 => vec![self.budget(random); count],
            // Where one step after another comes to fit, or each just not.
            1 | 2 => (from..from + count)
                .map(|moves| self.powers[moves.min(last)].saturating_sub(one_less))
                .collect(),
            // Spread over the whole loading.
            3 => (0..count).map(|part| self.powers[last * part / count]).collect(),
            _ => (0..count).map(|_| self.budget(random)).collect(),
        };
        if random.once_in(3) {
            // Two alike.
            let equal = random.below(count);
            budgets[equal] = budgets[random.below(count)];
        }
        budgets.sort();
        budgets
    }

    /// The same, mostly none below the rests; else the first, often by 1.
    fn above_rests(&self, random: &mut Random, count: usize) -> Vec<u64> {
        let mut budgets = self.rising(random, count);
        if random.once_in(6) {
            budgets[0] = budgets[0].min(self.rests.saturating_sub(1));
        } else if !random.once_in(8) {
            budgets.iter_mut().for_each(|budget| *budget = self.rests.max(*budget));
        }
        budgets
    }

    /// A list, one in five damaged.
    pub fn list(&self, random: &mut Random) -> Vec<u8> {
        let any = random.between(1, MOST_BUDGETS as u64) as usize;
        let count = random.pick(&[1, 2, 3, MOST_BUDGETS - 1, MOST_BUDGETS, MOST_BUDGETS, any, any]);
        if random.once_in(5) {
            let budgets = self.above_rests(random, count.max(any));
            return damaged(random, budgets);
        }
        let most = if random.once_in(self.but_once_in) { MOST_BUDGETS } else { self.loadings };
        to_bytes(&self.above_rests(random, count.min(most.max(2))))
    }
}

/// An entry is too large, or below the one before it.
fn spoil(random: &mut Random, budgets: &mut [u64]) {
    let (last, any) = (budgets.len() - 1, random.next());
    let place = if random.once_in(5) { last } else { random.below(last + 1) };
    if place == 0 || random.once_in(2) {
        let over = LARGEST_POWER + 1;
        budgets[place] = random.pick(&[over, over, 1 << 48, 1 << 63, u64::MAX, any.max(over)]);
    } else {
        budgets[place - 1] = budgets[place - 1].max(1);
        budgets[place] = random.pick(&[budgets[place - 1] - 1, 0, any % budgets[place - 1]]);
    }
}

/// A list at fault in its entries, in one or two, or in its length, or in both.
fn damaged(random: &mut Random, mut budgets: Vec<u64>) -> Vec<u8> {
    if random.once_in(20) {
        return vec![255; BYTES_A_BUDGET * budgets.len()];
    }
    let entries = random.below(3);
    (0..entries).for_each(|_| spoil(random, &mut budgets));
    if entries > 0 && !random.once_in(5) {
        return to_bytes(&budgets);
    }
    let mut list = to_bytes(&budgets);
    let odd = random.between(1, BYTES_A_BUDGET as u64 - 1) as usize;
    let more = random.pick(&[1, 1, 1, 2, 8, 32, 223, 224]);
    let last = budgets[budgets.len() - 1];
    match random.below(4) {
        0 => list.clear(),
        1 => list.truncate(list.len() - odd),
        2 => list.extend(vec![random.pick(&[0, 255]); odd]),
        _ => {
            budgets.resize(MOST_BUDGETS + more, last);
            list = to_bytes(&budgets);
        }
    }
    list
}

#[cfg(test)]
mod tests {
    use super::*;
    use crate::inputs::{input, Input};
    use crate::paper::budgets::{one_by_one, BYTES_OF_TOTALS};
    use crate::paper::line::read_bytes;
    use crate::paper::ANSWER_BYTES;
    use crate::totals::number;
    use std::collections::BTreeMap;

    type Sorts<'a> = Vec<(&'a str, bool)>;

    fn budgets(input: &Input) -> Vec<u64> {
        input.list.chunks_exact(BYTES_A_BUDGET).map(number).collect()
    }

    /// Whether the length of a list is at fault.
    fn is_of_wrong_length(list: &[u8]) -> bool {
        let budgets = list.len() / BYTES_A_BUDGET;
        list.len() != BYTES_A_BUDGET * budgets || budgets == 0 || budgets > MOST_BUDGETS
    }

    fn refusal(input: &Input) -> (u64, usize) {
        let mut totals = input.totals.clone();
        let returned = one_by_one(&input.sheet, &input.list, &mut totals, &input.answer);
        (returned >> 32, (returned & 0xffff_ffff) as usize)
    }

    /// How often each sort is among the first inputs.
    fn count(sorts: impl Fn(&Input) -> Sorts<'static>) -> BTreeMap<&'static str, u32> {
        let mut counts = BTreeMap::new();
        for index in 0..12_000 {
            for (sort, is) in sorts(&input(1, index)) {
                *counts.entry(sort).or_insert(0) += u32::from(is);
            }
        }
        counts
    }

    /// What is to be seen of a list that is accepted.
    fn sorts_of_list(input: &Input) -> Sorts<'static> {
        if refusal(input).0 != 0 {
            return Vec::new();
        }
        let line = read_bytes(&input.sheet).expect("it was accepted");
        let (rests, budgets) = (line.sum_of_rests(), budgets(input));
        let (first, count) = (budgets[0], budgets.len());
        let mut run = Running::nothing(&line);
        run.budget = LARGEST_POWER;
        let powers = powers(&mut run);
        let changes = |budget: &u64| powers[1..].binary_search(budget).is_ok();
        let equal = budgets.windows(2).filter(|pair| pair[0] == pair[1]).count();
        let each = budgets.windows(2).all(|pair| changes(&pair[1]) && pair[0] < pair[1]);
        let at = input.totals.len() - BYTES_OF_TOTALS * count;
        vec![
            ("one budget", count == 1),
            ("32 budgets", count == 32),
            ("32 budgets on 256 tones", count == 32 && line.tones == 256),
            ("32 budgets on more", count == 32 && line.tones > 256),
            ("equal neighbours", equal > 0 && equal < count - 1),
            ("all equal", count > 1 && equal == count - 1),
            ("all different", count == 32 && equal == 0),
            ("from 0", first == 0),
            ("at the rests", rests > 0 && first == rests),
            ("one above the rests", rests > 0 && first == rests + 1),
            ("at 2^47", budgets.contains(&LARGEST_POWER)),
            ("all at 2^47", first == LARGEST_POWER),
            ("where a step comes to fit", budgets.iter().any(changes)),
            ("where one just does not", budgets.iter().any(|budget| changes(&(budget + 1)))),
            ("each where another step fits", count > 8 && each),
            ("at the full table", budgets.contains(&powers[powers.len() - 1])),
            ("at the sheet's own", budgets.contains(&line.budget)),
            ("all below the sheet's own", budgets[count - 1] < line.budget),
            ("all above the sheet's own", first > line.budget),
            ("the sheet's own is below the rests", rests > line.budget),
            ("exact room", at == 0),
            ("more room", at > 0),
            ("an answer buffer of 24 bytes", input.answer.len() == ANSWER_BYTES),
        ]
    }

    /// What is to be seen of a refused list, or of what else is refused with a list.
    fn sorts_of_refusal(input: &Input) -> Sorts<'static> {
        let (number, place) = refusal(input);
        let Ok(line) = read_bytes(&input.sheet) else {
            let over = budgets(input).iter().any(|budget| *budget > LARGEST_POWER);
            return vec![
                ("a refused sheet and an empty list", input.list.is_empty()),
                ("a refused sheet and too large a budget", over),
            ];
        };
        let (rests, budgets) = (line.sum_of_rests(), budgets(input));
        let count = budgets.len();
        let over = |place: usize| budgets.get(place).is_some_and(|budget| *budget > LARGEST_POWER);
        let falls =
            |place: usize| place > 0 && place < count && budgets[place] < budgets[place - 1];
        let other = |fault: &dyn Fn(usize) -> bool| (0..count).any(|at| at != place && fault(at));
        let length = is_of_wrong_length(&input.list);
        let entry = number == 4 && !length;
        let answers = input.answer.len() < ANSWER_BYTES;
        let short = input.totals.len() < BYTES_OF_TOTALS * count || answers;
        let poor = count > 0 && budgets[0] < rests;
        let rich = count > 0 && budgets[count - 1] >= rests;
        vec![
            ("empty", input.list.is_empty()),
            ("33 budgets", count == 33 && !other(&|at| over(at) || falls(at))),
            ("256 budgets", count == 256),
            ("a wrong length and a fault behind", length && other(&|at| over(at) || falls(at))),
            ("too large", entry && over(place)),
            ("too large, the last of 32", entry && place == 31 && over(31)),
            ("falling", entry && falls(place)),
            ("falling, the last of 32", entry && place == 31 && falls(31)),
            ("falling by 1", entry && falls(place) && budgets[place] + 1 == budgets[place - 1]),
            ("falling, not below the first", entry && falls(place) && budgets[place] >= budgets[0]),
            ("too large by 1", entry && budgets[place] == LARGEST_POWER + 1),
            ("falling, one too large behind", entry && falls(place) && other(&over)),
            ("too large, one falling behind", entry && over(place) && other(&falls)),
            ("all ff", count > 0 && input.list.iter().all(|byte| *byte == 255)),
            ("4 and 16", number == 4 && poor),
            ("4 and 8", number == 4 && short),
            ("16 by the first, and not by the last", number == 16 && rich),
            ("16 by the first, and not by the sheet's own", number == 16 && rests <= line.budget),
            ("16 by both", number == 16 && rests > line.budget),
            ("16 by one less", number == 16 && budgets[0] + 1 == rests),
            ("16 and 8", number == 16 && short),
            ("8 by one byte", number == 8 && input.totals.len() + 1 == BYTES_OF_TOTALS * count),
            ("8 by an empty buffer", number == 8 && input.totals.is_empty()),
            ("8 by 23 bytes of answers", number == 8 && input.answer.len() == 23),
            ("8 by no bytes of answers", number == 8 && input.answer.is_empty()),
        ]
    }

    #[test]
    fn lists_of_every_sort() {
        let counts = count(sorts_of_list);
        let all = counts.len() == 23 && counts.values().all(|&count| count > 5);
        assert!(all, "lists: {counts:#?}");
    }

    #[test]
    fn every_fault_of_a_list() {
        let counts = count(sorts_of_refusal);
        let all = counts.len() == 27 && counts.values().all(|&count| count > 5);
        assert!(all, "lists: {counts:#?}");
    }

    /// Lists are refused at each entry, for both reasons, and are each number of bytes too
    /// long or too short.
    #[test]
    fn every_place_of_a_fault() {
        let (mut over, mut falling, mut odd) = ([0; MOST_BUDGETS], [0; MOST_BUDGETS], [0; 8]);
        for index in 0..20_000 {
            let input = input(1, index);
            odd[input.list.len() % BYTES_A_BUDGET] += 1;
            let of_entry = read_bytes(&input.sheet).is_ok() && !is_of_wrong_length(&input.list);
            match refusal(&input) {
                (4, place) if of_entry => {
                    let too_large = budgets(&input)[place] > LARGEST_POWER;
                    (if too_large { &mut over } else { &mut falling })[place] += 1;
                }
                _ => {}
            }
        }
        let all = over.iter().chain(&falling[1..]).chain(&odd).all(|&count| count > 3);
        assert!(all, "too large: {over:?}, falling: {falling:?}, bytes: {odd:?}");
    }
}
