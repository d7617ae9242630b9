//! A table while it is loaded or re-fitted.

use super::line::{limit, power, Kind, Line};
use super::{refuse, Refusal, BYTES_A_TONE};

/// A step: its size, then its tone; compared in that order.
pub type Step = (u64, usize);

/// The sizes of a tone that has no free step, and of one that has no held step.
const NO_FREE: u64 = u64::MAX;
const NO_HELD: u64 = 0;

/// What a tone's powers depend on.
#[derive(Clone, Copy)]
pub struct Powers {
    kind: Kind,
    pub cost: u64,
    /// What it sends with no bits.
    rest: u64,
}

impl Powers {
    /// The power at some number of bits: at none, the rest.
    fn at(self, bits: u8) -> u64 {
        match bits {
            0 => self.rest,
            _ => power(self.kind, self.cost, bits),
        }
    }

    /// The size of the step at some number of bits.
    fn step_at(self, bits: u8) -> u64 {
        self.at(bits + 1) - self.at(bits)
    }
}

/// A table while it is loaded, with each tone's next free and last held step.
pub struct Running {
    pub tones: usize,
    pub budget: u64,
    pub powers: Vec<Powers>,
    pub limit: Vec<u8>,
    pub bits: Vec<u8>,
    free: Vec<u64>,
    held: Vec<u64>,
    pub total_bits: u64,
    pub total_power: u64,
}

impl Running {
    /// The table of no bits, in which each tone sends its rest.
    pub fn nothing(line: &Line) -> Running {
        let mut run = Running {
            tones: line.tones,
            budget: line.budget,
            powers: vec![Powers { kind: Kind::Pair, cost: 0, rest: 0 }; line.tones],
            limit: vec![0; line.tones],
            bits: vec![0; line.tones],
            free: vec![NO_FREE; line.tones],
            held: vec![NO_HELD; line.tones],
            total_bits: 0,
            total_power: line.sum_of_rests(),
        };
        let gap = line.gap.value();
        for (number, tone) in line.described.iter().enumerate() {
            let Some(tone) = tone else { continue };
            let cost = tone.cost(gap);
            run.powers[number] = Powers { kind: tone.kind, cost, rest: line.rest(number) };
            if !line.is_silenced(number) {
                run.limit[number] = limit(tone, cost);
            }
            run.set(number, 0);
        }
        run
    }

    /// A starting table: refusals 9 and 10.
    pub fn from_start(line: &Line, start: &[u8]) -> Result<Running, Refusal> {
        if start.len() != line.tones {
            return refuse(9, 0);
        }
        let mut run = Running::nothing(line);
        for (tone, &bits) in start.iter().enumerate() {
            if bits > run.limit[tone] {
                return refuse(10, tone);
            }
            run.set(tone, bits);
        }
        Ok(run)
    }

    pub fn power_at(&self, tone: usize, bits: u8) -> u64 {
        self.powers[tone].at(bits)
    }

    pub fn power(&self, tone: usize) -> u64 {
        self.power_at(tone, self.bits[tone])
    }

    /// Gives a tone its bits, and keeps the totals and its two steps.
    fn set(&mut self, tone: usize, bits: u8) {
        let (powers, was) = (self.powers[tone], self.bits[tone]);
        self.total_bits = self.total_bits - u64::from(was) + u64::from(bits);
        self.total_power = self.total_power - powers.at(was) + powers.at(bits);
        self.bits[tone] = bits;
        self.free[tone] = if bits < self.limit[tone] { powers.step_at(bits) } else { NO_FREE };
        self.held[tone] = if bits > 0 { powers.step_at(bits - 1) } else { NO_HELD };
    }

    /// Like the other search it is compiled once, so that all runs take as long for a move.
    #[inline(never)]
    pub fn earliest_free(&self) -> Option<Step> {
        let mut earliest = (NO_FREE, 0);
        for (tone, &size) in self.free.iter().enumerate() {
            if size < earliest.0 {
                earliest = (size, tone);
            }
        }
        (earliest.0 != NO_FREE).then_some(earliest)
    }

    #[inline(never)]
    pub fn latest_held(&self) -> Option<Step> {
        let mut latest = (NO_HELD, 0);
        for (tone, &size) in self.held.iter().enumerate() {
            if size >= latest.0 {
                latest = (size, tone);
            }
        }
        (latest.0 != NO_HELD).then_some(latest)
    }

    fn take(&mut self, tone: usize) {
        self.set(tone, self.bits[tone] + 1);
    }

    fn give_up(&mut self, tone: usize) {
        self.set(tone, self.bits[tone] - 1);
    }

    /// A move of the adding run: whether the earliest free step fitted.
    pub fn add(&mut self) -> bool {
        match self.earliest_free() {
            Some((size, tone)) if self.total_power + size <= self.budget => {
                self.take(tone);
                true
            }
            _ => false,
        }
    }

    /// The adding run to its end. It is compiled once, so that both ways to many budgets
    /// take as long for a move.
    #[inline(never)]
    pub fn add_all(&mut self) {
        while self.add() {}
    }

    /// A step of the re-fit: whether it moved.
    pub fn refit_step(&mut self) -> bool {
        match (self.latest_held(), self.earliest_free()) {
            (Some(held), Some(free)) if free < held => {
                self.give_up(held.1);
                self.take(free.1);
            }
            (Some(held), _) if self.total_power > self.budget => self.give_up(held.1),
            (_, Some(free)) if self.total_power + free.0 <= self.budget => self.take(free.1),
            _ => return false,
        }
        true
    }

    pub fn write(&self, table: &mut [u8]) {
        for (tone, place) in table.chunks_exact_mut(BYTES_A_TONE).take(self.tones).enumerate() {
            place[0] = self.bits[tone];
            place[1..].copy_from_slice(&self.power(tone).to_be_bytes());
        }
    }
}
