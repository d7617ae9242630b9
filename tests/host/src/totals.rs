//! The totals that a call answers, added up again from the table that it wrote; and
//! a re-fit walked step by step, as a display does.

use crate::calls::{self, Call, Outcome};
use crate::inputs::Input;
use crate::paper::BYTES_A_TONE;

/// Longer re-fits are not walked.
const MOST_WALKED: u64 = 32;

pub fn number(bytes: &[u8]) -> u64 {
    bytes.iter().fold(0, |number, byte| number << 8 | u64::from(*byte))
}

/// Answer i of a call.
pub fn answered(outcome: &Outcome, i: usize) -> u64 {
    number(&outcome.answer[8 * i..8 * i + 8])
}

/// N of an accepted sheet.
pub fn tones(input: &Input) -> usize {
    number(&input.sheet[1..3]) as usize
}

/// The entries of a written table: one byte of bits, eight of power.
pub fn entries<'a>(input: &Input, outcome: &'a Outcome) -> impl Iterator<Item = &'a [u8]> {
    let tones = tones(input);
    outcome.destination[..BYTES_A_TONE * tones].chunks_exact(BYTES_A_TONE)
}

/// Whether an accepted call's totals are the sums over the table that it wrote.
fn adds_up(input: &Input, outcome: &Outcome) -> bool {
    let (mut bits, mut power) = (0, 0);
    for entry in entries(input, outcome) {
        bits += u64::from(entry[0]);
        power += number(&entry[1..]);
    }
    (bits, power) == (answered(outcome, 0), answered(outcome, 1))
}

/// Each step's table is the next one's start, and each says its sums; they end where
/// the re-fit ended, after as many moves.
fn walk(input: &Input, refit: &Outcome) -> Result<(), String> {
    let mut input = input.clone();
    for moves in 0..=answered(refit, 2) {
        let step = calls::ours(Call::RefitStep, &input)?;
        if step.returned != 0 || !adds_up(&input, &step) {
            return Err(format!("step {} of the re-fit does not add up", moves + 1));
        }
        if answered(&step, 2) != u64::from(moves < answered(refit, 2)) {
            return Err(format!("after {moves} steps the re-fit is not where its count says"));
        }
        input.start = entries(&input, &step).map(|entry| entry[0]).collect();
        if moves == answered(refit, 2) && step.destination != refit.destination {
            return Err("the steps do not end where the re-fit ends".to_string());
        }
    }
    Ok(())
}

/// What an accepted loading or re-fit of an input says of totals.
pub fn judge(call: Call, input: &Input, outcome: &Outcome) -> Result<(), String> {
    if !adds_up(input, outcome) {
        return Err("the table does not add up to the totals".to_string());
    }
    if call == Call::Refit && answered(outcome, 2) <= MOST_WALKED {
        return walk(input, outcome);
    }
    Ok(())
}
