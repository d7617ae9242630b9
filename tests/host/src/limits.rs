//! The limits that our call wrote, against what our other calls make of them.

use crate::calls::{self, Call, Outcome};
use crate::inputs::Input;
use crate::paper::{BYTES_A_LIMIT, BYTES_A_TONE};
use crate::totals::{entries, number, tones};

/// No tone of the loading for most bits has more than its limit; a re-fit may start
/// from the limits, and not from one bit more on a tone. Which tone is picked by two bytes
/// that the answer buffer happens to hold.
pub fn judge(input: &Input, outcome: &Outcome) -> Result<(), String> {
    let tones = tones(input);
    let limits: Vec<u8> =
        (0..tones).map(|tone| outcome.destination[BYTES_A_LIMIT * tone]).collect();
    let mut input = Input { table: vec![0; BYTES_A_TONE * tones], ..input.clone() };
    let loaded = calls::ours(Call::LoadMost, &input)?;
    if loaded.returned != 0 {
        return Err("a sheet whose limits were written is not loaded".to_string());
    }
    let mut both = entries(&input, &loaded).zip(&limits);
    if let Some(tone) = both.position(|(entry, limit)| entry[0] > *limit) {
        return Err(format!("load_most gives tone {tone} more bits than its limit"));
    }
    input.start = limits;
    if calls::ours(Call::RefitStep, &input)?.returned != 0 {
        return Err("a re-fit does not start from the limits".to_string());
    }
    let tone = number(&input.answer[..2]) as usize % tones;
    input.start[tone] += 1;
    if calls::ours(Call::RefitStep, &input)?.returned != 10 << 32 | tone as u64 {
        return Err(format!("a re-fit from one bit more on tone {tone} is not refused there"));
    }
    Ok(())
}
