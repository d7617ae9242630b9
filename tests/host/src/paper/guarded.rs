//! The guarded loading of a line whose noises are known as ranges: document 02's request W9.

use super::line::read;
use super::run::Running;
use super::{returned, room, write_answers, BYTES_A_TONE};

/// "A guarded loading uses every high noise." It answers total bits and total power, "also
/// the total bits of the plain loading at the low noises".
pub fn guarded(sheet: &[u8], table: &mut [u8], answer: &mut [u8]) -> u64 {
    returned((|| {
        let line = read(sheet)?;
        room(table, BYTES_A_TONE * line.tones, answer)?;
        let mut plain = Running::nothing(&line);
        plain.add_all();
        let mut run = Running::nothing(&line.at_high_noises());
        run.add_all();
        run.write(table);
        write_answers(answer, &[run.total_bits, run.total_power, plain.total_bits]);
        Ok(())
    })())
}
