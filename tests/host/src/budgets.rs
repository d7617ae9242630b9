//! The totals that our call wrote for a list of budgets, against our loadings.

use crate::calls::{self, Call, Outcome};
use crate::inputs::Input;
use crate::paper::budgets::{BYTES_A_BUDGET, BYTES_OF_TOTALS};
use crate::paper::BYTES_A_TONE;
use crate::sheets::with_budget;
use crate::totals::{number, tones};

/// The totals at a budget are what the loading for most bits answers on the sheet with that
/// budget in the place of its own. Which budget is picked by a byte that the answer buffer
/// happens to hold.
pub fn judge(input: &Input, outcome: &Outcome) -> Result<(), String> {
    let place = usize::from(input.answer[0]) % (input.list.len() / BYTES_A_BUDGET);
    let budget = number(&input.list[BYTES_A_BUDGET * place..][..BYTES_A_BUDGET]);
    let sheet = with_budget(&input.sheet, budget);
    let table = vec![0; BYTES_A_TONE * tones(input)];
    let loaded = calls::ours(Call::LoadMost, &Input { sheet, table, ..input.clone() })?;
    if loaded.returned != 0 {
        return Err(format!("at budget {place} of the list the sheet is not loaded"));
    }
    let (bits, power) = (number(&loaded.answer[..8]), number(&loaded.answer[8..16]));
    let totals = &outcome.destination[BYTES_OF_TOTALS * place..][..BYTES_OF_TOTALS];
    if (bits, power) != (number(&totals[..4]), number(&totals[4..])) {
        return Err(format!("at budget {place} of the list a loading has other totals"));
    }
    Ok(())
}
