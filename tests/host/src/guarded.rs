//! The guarded loading that our call wrote, against our loadings for most bits.

use crate::calls::{self, Call, Outcome};
use crate::inputs::Input;
use crate::sheets::at_high_noises;
use crate::totals::{self, answered};

/// The table, total bits and total power are those of the loading for most bits on the sheet
/// with every high noise in the place of the noise; and the third answer is the total bits
/// of that loading on the sheet itself.
pub fn judge(input: &Input, outcome: &Outcome) -> Result<(), String> {
    totals::judge(Call::Guarded, input, outcome)?;
    let raised = Input { sheet: at_high_noises(&input.sheet), ..input.clone() };
    let [plain, raised] = [input, &raised].map(|input| calls::ours(Call::LoadMost, input));
    let (plain, raised) = (plain?, raised?);
    if (plain.returned, raised.returned) != (0, 0) {
        return Err("a sheet whose guarded loading was written is not loaded".to_string());
    }
    if answered(&plain, 0) != answered(outcome, 2) {
        return Err("load_most has other bits than are answered for it".to_string());
    }
    if raised.destination != outcome.destination || raised.answer[..16] != outcome.answer[..16] {
        return Err("at the high noises load_most has another table or totals".to_string());
    }
    Ok(())
}
