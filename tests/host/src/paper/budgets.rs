//! Many budgets on one line: document 02's request W7.

use super::line::{read_bytes, Line, LARGEST_POWER};
use super::run::Running;
use super::{refuse, returned, room, Refusal};

pub const MOST_BUDGETS: usize = 32;
pub const BYTES_A_BUDGET: usize = 8;
/// Total bits in 4 bytes and total power in 8.
pub const BYTES_OF_TOTALS: usize = 12;

/// The budgets of a list. Refusal 4: "its length judged first with place 0, else with the
/// number, from 0, of the first entry that is too large or below the one before it".
fn read_list(list: &[u8]) -> Result<Vec<u64>, Refusal> {
    let entries = list.chunks_exact(BYTES_A_BUDGET);
    if !entries.remainder().is_empty() || !(1..=MOST_BUDGETS).contains(&entries.len()) {
        return refuse(4, 0);
    }
    let mut budgets = Vec::new();
    for (place, entry) in entries.enumerate() {
        let budget = u64::from_be_bytes(entry.try_into().expect("8 bytes"));
        if budget > LARGEST_POWER || budgets.last().is_some_and(|last| budget < *last) {
            return refuse(4, place);
        }
        budgets.push(budget);
    }
    Ok(budgets)
}

/// Line and budgets, if nothing is refused. The line's own budget is not judged: 16 goes by
/// the first of the list.
fn accepted(
    sheet: &[u8],
    list: &[u8],
    totals: &[u8],
    answer: &[u8],
) -> Result<(Line, Vec<u64>), Refusal> {
    let line = read_bytes(sheet)?;
    let budgets = read_list(list)?;
    if line.sum_of_rests() > budgets[0] {
        return refuse(16, 0);
    }
    room(totals, BYTES_OF_TOTALS * budgets.len(), answer)?;
    Ok((line, budgets))
}

/// Total bits and total power where a loading ended.
fn write(run: &Running, place: &mut [u8]) {
    let (bits, power) = place.split_at_mut(4);
    bits.copy_from_slice(&(run.total_bits as u32).to_be_bytes());
    power.copy_from_slice(&run.total_power.to_be_bytes());
}

/// The totals for each budget: "what a loading with that budget alone would give". There
/// are no answers.
pub fn one_by_one(sheet: &[u8], list: &[u8], totals: &mut [u8], answer: &[u8]) -> u64 {
    returned((|| {
        let (mut line, budgets) = accepted(sheet, list, totals, answer)?;
        for (budget, place) in budgets.iter().zip(totals.chunks_exact_mut(BYTES_OF_TOTALS)) {
            line.budget = *budget;
            let mut run = Running::nothing(&line);
            run.add_all();
            write(&run, place);
        }
        Ok(())
    })())
}

/// The same in one run, which goes on from where the last budget ended: for its time.
pub fn in_one_pass(sheet: &[u8], list: &[u8], totals: &mut [u8], answer: &[u8]) -> u64 {
    returned((|| {
        let (line, budgets) = accepted(sheet, list, totals, answer)?;
        let mut run = Running::nothing(&line);
        for (budget, place) in budgets.iter().zip(totals.chunks_exact_mut(BYTES_OF_TOTALS)) {
            run.budget = *budget;
            run.add_all();
            write(&run, place);
        }
        Ok(())
    })())
}

#[cfg(test)]
mod tests {
    use super::*;
    use crate::inputs::input;
    use crate::lists::to_bytes;
    use crate::sheets::{with_budget, RESTS, SAMPLE};

    /// What the call returns, and the totals that it wrote; a refusal changes no byte.
    fn outcome(sheet: &[u8], list: &[u8], room: usize, answers: usize) -> (u64, Vec<u8>) {
        let (mut totals, answer) = (vec![238; room], vec![238; answers]);
        let returned = one_by_one(sheet, list, &mut totals, &answer);
        assert!(returned == 0 || totals.iter().all(|byte| *byte == 238));
        (returned, totals)
    }

    /// A refusal's number and place.
    fn refusal(sheet: &[u8], list: &[u8], room: usize, answers: usize) -> (u64, u64) {
        let (returned, _) = outcome(sheet, list, room, answers);
        (returned >> 32, returned & 0xffff_ffff)
    }

    /// Document 01's cases of the sample, in one list; the sheet's own budget is any.
    #[test]
    fn budgets_of_the_sample() {
        let due = [
            (0, 0, 0),
            (2, 0, 0),
            (3, 1, 3),
            (38, 5, 27),
            (39, 6, 39),
            (39, 6, 39),
            (50, 6, 39),
            (51, 7, 51),
            (170, 9, 123),
            (171, 10, 171),
            (LARGEST_POWER, 10, 171),
        ];
        let list = to_bytes(&due.map(|(budget, _, _)| budget));
        let bytes = |(_, bits, power): (u64, u32, u64)| {
            [&bits.to_be_bytes()[..], &power.to_be_bytes()].concat()
        };
        let totals = [due.map(bytes).concat(), vec![238; 5]].concat();
        for budget in [0, 39, LARGEST_POWER] {
            let sheet = with_budget(&SAMPLE, budget);
            assert_eq!(outcome(&sheet, &list, totals.len(), 24), (0, totals.clone()));
        }
    }

    /// The length first, then the first entry that is too large or falls.
    #[test]
    fn lists_refused() {
        let over = LARGEST_POWER + 1;
        for (list, due) in [
            (&[][..], (4, 0)),
            (&[0; 32], (0, 0)),
            (&[0; 33], (4, 0)),
            (&[over; 33], (4, 0)),
            (&[LARGEST_POWER; 32], (0, 0)),
            (&[over], (4, 0)),
            (&[1, LARGEST_POWER, over, over], (4, 2)),
            (&[1, 0], (4, 1)),
            (&[0, 1, 2, 1, 0, over], (4, 3)),
            (&[0, 1, over, 1, 0], (4, 2)),
            (&[u64::MAX, u64::MAX], (4, 0)),
        ] {
            let mut list = to_bytes(list);
            assert_eq!(refusal(&SAMPLE, &list, 400, 24), due, "{list:02x?}");
            for _ in 1..BYTES_A_BUDGET {
                list.push(0);
                assert_eq!(refusal(&SAMPLE, &list, 400, 24), (4, 0), "{list:02x?}");
            }
        }
    }

    /// Refusals of the sheet's bytes, then 4, 16 and 8. The rests of the sheet are 66,061.
    #[test]
    fn order_of_refusals() {
        let followed = [&RESTS[..], &[7]].concat();
        let poor = with_budget(&RESTS, 0);
        for (sheet, list, room, answers, due) in [
            (&followed[..], &[2, 1][..], 0, 0, (7, 64)),
            (&RESTS, &[2, 1], 0, 0, (4, 1)),
            (&RESTS, &[66_060, LARGEST_POWER], 0, 0, (16, 0)),
            (&RESTS, &[66_061, LARGEST_POWER], 23, 24, (8, 0)),
            (&RESTS, &[66_061, LARGEST_POWER], 24, 23, (8, 0)),
            (&RESTS, &[66_061, LARGEST_POWER], 24, 24, (0, 0)),
            // The sheet's own budget is below its rests.
            (&poor, &[66_061], 12, 24, (0, 0)),
            (&poor, &[66_060], 12, 24, (16, 0)),
            (&poor, &[], 12, 24, (4, 0)),
        ] {
            assert_eq!(refusal(sheet, &to_bytes(list), room, answers), due, "{list:?}");
        }
    }

    /// On random lines, refusals among them.
    #[test]
    fn one_pass_as_one_by_one() {
        let mut budgets = 0;
        for index in 0..6_000 {
            let input = input(1, index);
            let both = [one_by_one, in_one_pass].map(|call| {
                let mut totals = input.totals.clone();
                (call(&input.sheet, &input.list, &mut totals, &input.answer), totals)
            });
            assert_eq!(both[0], both[1], "input {index}");
            if both[0].0 == 0 {
                budgets += input.list.len() / BYTES_A_BUDGET;
            }
        }
        assert!(budgets > 10_000, "{budgets} budgets");
    }
}
