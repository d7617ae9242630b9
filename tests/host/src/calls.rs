//! The calls of the two archives, each buffer lent with canary bytes round it.

use crate::inputs::Input;
use crate::paper;

/// libtoqhaymi.a: the six calls of the C host.
mod host {
    extern "C" {
        pub fn toqhaymi_check(
            sheet: *const u8,
            sheet_length: usize,
            answer: *mut u8,
            answer_length: usize,
        ) -> u64;
        pub fn toqhaymi_load_most(
            sheet: *const u8,
            sheet_length: usize,
            table: *mut u8,
            table_length: usize,
            answer: *mut u8,
            answer_length: usize,
        ) -> u64;
        pub fn toqhaymi_load_target(
            sheet: *const u8,
            sheet_length: usize,
            target: u32,
            table: *mut u8,
            table_length: usize,
            answer: *mut u8,
            answer_length: usize,
        ) -> u64;
        pub fn toqhaymi_refit(
            sheet: *const u8,
            sheet_length: usize,
            start: *const u8,
            start_length: usize,
            table: *mut u8,
            table_length: usize,
            answer: *mut u8,
            answer_length: usize,
        ) -> u64;
        pub fn toqhaymi_refit_step(
            sheet: *const u8,
            sheet_length: usize,
            start: *const u8,
            start_length: usize,
            table: *mut u8,
            table_length: usize,
            answer: *mut u8,
            answer_length: usize,
        ) -> u64;
        pub fn toqhaymi_tidy(
            sheet: *const u8,
            sheet_length: usize,
            tidy: *mut u8,
            tidy_length: usize,
            answer: *mut u8,
            answer_length: usize,
        ) -> u64;
    }
}

/// liboutside.a: the library's calls that the C host does not have, by its conventions.
mod outside {
    extern "C" {
        pub fn outside_budgets(
            sheet: *const u8,
            sheet_length: usize,
            list: *const u8,
            list_length: usize,
            totals: *mut u8,
            totals_length: usize,
            answer: *mut u8,
            answer_length: usize,
        ) -> u64;
        pub fn outside_guarded(
            sheet: *const u8,
            sheet_length: usize,
            table: *mut u8,
            table_length: usize,
            answer: *mut u8,
            answer_length: usize,
        ) -> u64;
        pub fn outside_limits(
            sheet: *const u8,
            sheet_length: usize,
            limits: *mut u8,
            limits_length: usize,
            answer: *mut u8,
            answer_length: usize,
        ) -> u64;
    }
}

/// A buffer as C sees it.
pub type Buffer = (*mut u8, usize);

#[derive(Clone, Copy, Debug, PartialEq, Eq)]
pub enum Call {
    Check,
    LoadMost,
    LoadTarget,
    Refit,
    RefitStep,
    Tidy,
    Limits,
    Budgets,
    Guarded,
}

impl Call {
    pub const ALL: [Call; 9] = [
        Call::Check,
        Call::LoadMost,
        Call::LoadTarget,
        Call::Refit,
        Call::RefitStep,
        Call::Tidy,
        Call::Limits,
        Call::Budgets,
        Call::Guarded,
    ];

    pub fn name(self) -> &'static str {
        match self {
            Call::Check => "check",
            Call::LoadMost => "load_most",
            Call::LoadTarget => "load_target",
            Call::Refit => "refit",
            Call::RefitStep => "refit_step",
            Call::Tidy => "tidy",
            Call::Limits => "limits",
            Call::Budgets => "budgets",
            Call::Guarded => "guarded",
        }
    }

    /// Whether the C host has the call.
    pub fn is_of_host(self) -> bool {
        !matches!(self, Call::Limits | Call::Budgets | Call::Guarded)
    }

    /// The name of the call's function in its archive.
    pub fn entry_name(self) -> String {
        let archive = if self.is_of_host() { "toqhaymi" } else { "outside" };
        format!("{archive}_{}", self.name())
    }

    /// The refusals that the call can give.
    pub fn refusals(self) -> &'static [u64] {
        match self {
            Call::LoadTarget => &[1, 2, 3, 4, 5, 6, 7, 8, 11, 12, 13, 14, 15, 16],
            Call::Refit | Call::RefitStep => &[1, 2, 3, 4, 5, 6, 7, 8, 9, 10, 12, 13, 14, 15, 16],
            _ => &[1, 2, 3, 4, 5, 6, 7, 8, 12, 13, 14, 15, 16],
        }
    }

    /// What is read besides the sheet, if anything is.
    pub fn source(self, input: &Input) -> &[u8] {
        match self {
            Call::Budgets => &input.list,
            _ => &input.start,
        }
    }

    /// What the source is called.
    pub fn source_name(self) -> &'static str {
        match self {
            Call::Budgets => "list",
            _ => "starting table",
        }
    }

    /// What the destination holds before the call; a check has none.
    pub fn destination(self, input: &Input) -> &[u8] {
        match self {
            Call::Check => &[],
            Call::Tidy => &input.tidy,
            Call::Limits => &input.limits,
            Call::Budgets => &input.totals,
            _ => &input.table,
        }
    }

    /// What the destination is called.
    pub fn destination_name(self) -> &'static str {
        match self {
            Call::Tidy => "tidy sheet",
            Call::Limits => "limits",
            Call::Budgets => "totals",
            _ => "table",
        }
    }

    /// Calls the archive. The buffers must be distinct and as long as they say.
    pub unsafe fn ours(
        self,
        sheet: Buffer,
        source: Buffer,
        target: u32,
        table: Buffer,
        answer: Buffer,
    ) -> u64 {
        use {host::*, outside::*};
        let ((sheet, sheet_length), (source, source_length)) = (sheet, source);
        let ((table, table_length), (answer, answer_length)) = (table, answer);
        match self {
            Call::Check => toqhaymi_check(sheet, sheet_length, answer, answer_length),
            Call::LoadMost | Call::Tidy | Call::Limits | Call::Guarded => {
                let without_source = match self {
                    Call::LoadMost => toqhaymi_load_most,
                    Call::Tidy => toqhaymi_tidy,
                    Call::Limits => outside_limits,
                    _ => outside_guarded,
                };
                without_source(sheet, sheet_length, table, table_length, answer, answer_length)
            }
            Call::LoadTarget => toqhaymi_load_target(
                sheet,
                sheet_length,
                target,
                table,
                table_length,
                answer,
                answer_length,
            ),
            Call::Refit | Call::RefitStep | Call::Budgets => {
                let with_source = match self {
                    Call::Refit => toqhaymi_refit,
                    Call::RefitStep => toqhaymi_refit_step,
                    _ => outside_budgets,
                };
                with_source(
                    sheet,
                    sheet_length,
                    source,
                    source_length,
                    table,
                    table_length,
                    answer,
                    answer_length,
                )
            }
        }
    }

    /// The archive's function and its arguments, as words in order.
    pub fn entry(self, buffers: [Buffer; 4], target: u32) -> (*const (), [usize; 8]) {
        use {host::*, outside::*};
        let [sheet, source, table, answer] =
            buffers.map(|(bytes, length)| [bytes as usize, length]);
        let target = [target as usize];
        let (function, given) = match self {
            Call::Check => (toqhaymi_check as *const (), [sheet, answer].concat()),
            Call::LoadMost => (toqhaymi_load_most as *const (), [sheet, table, answer].concat()),
            Call::LoadTarget => {
                (toqhaymi_load_target as *const (), [&sheet[..], &target, &table, &answer].concat())
            }
            Call::Refit => (toqhaymi_refit as *const (), [sheet, source, table, answer].concat()),
            Call::RefitStep => {
                (toqhaymi_refit_step as *const (), [sheet, source, table, answer].concat())
            }
            Call::Tidy => (toqhaymi_tidy as *const (), [sheet, table, answer].concat()),
            Call::Limits => (outside_limits as *const (), [sheet, table, answer].concat()),
            Call::Budgets => {
                (outside_budgets as *const (), [sheet, source, table, answer].concat())
            }
            Call::Guarded => (outside_guarded as *const (), [sheet, table, answer].concat()),
        };
        let mut words = [0; 8];
        words[..given.len()].copy_from_slice(&given);
        (function, words)
    }

    /// Calls the independent loader.
    pub fn papers(
        self,
        sheet: &[u8],
        source: &[u8],
        target: u32,
        destination: &mut [u8],
        answer: &mut [u8],
    ) -> u64 {
        match self {
            Call::Check => paper::check(sheet, answer),
            Call::LoadMost => paper::load_most(sheet, destination, answer),
            Call::LoadTarget => paper::load_target(sheet, target, destination, answer),
            Call::Refit => paper::refit(sheet, source, destination, answer),
            Call::RefitStep => paper::refit_step(sheet, source, destination, answer),
            Call::Tidy => paper::tidy(sheet, destination, answer),
            Call::Limits => paper::limits(sheet, destination, answer),
            Call::Budgets => paper::budgets::one_by_one(sheet, source, destination, answer),
            Call::Guarded => paper::guarded::guarded(sheet, destination, answer),
        }
    }
}

/// What a call returned and left.
#[derive(Debug, PartialEq, Eq)]
pub struct Outcome {
    pub returned: u64,
    pub destination: Vec<u8>,
    pub answer: Vec<u8>,
}

const CANARY: usize = 64;

/// A buffer with canary bytes before and after it, at any alignment.
struct Lent {
    bytes: Vec<u8>,
    front: usize,
    length: usize,
}

fn canary(place: usize) -> u8 {
    (place as u8).wrapping_mul(37) ^ 0xa5
}

impl Lent {
    fn new(content: &[u8]) -> Lent {
        let (front, length) = (CANARY + content.len() % 8, content.len());
        let mut bytes: Vec<u8> = (0..front).map(canary).collect();
        bytes.extend(content);
        bytes.extend((front + length..front + length + CANARY).map(canary));
        Lent { bytes, front, length }
    }

    fn lend(&mut self) -> Buffer {
        (self.bytes[self.front..].as_mut_ptr(), self.length)
    }

    /// The content, if the canary bytes stand.
    fn returned(self, name: &str) -> Result<Vec<u8>, String> {
        let inside = self.front..self.front + self.length;
        let mut outside = (0..inside.start).chain(inside.end..self.bytes.len());
        match outside.find(|&p| self.bytes[p] != canary(p)) {
            Some(p) if p < self.front => {
                Err(format!("byte {} before the {name} was changed", self.front - p))
            }
            Some(p) => Err(format!("byte {} after the {name} was changed", p + 1 - inside.end)),
            None => Ok(self.bytes[inside].to_vec()),
        }
    }

    /// The same of a buffer that is only read.
    fn only_read(self, name: &str, content: &[u8]) -> Result<(), String> {
        match self.returned(name)?.iter().zip(content).position(|(now, was)| now != was) {
            Some(place) => Err(format!("byte {place} of the {name} was changed")),
            None => Ok(()),
        }
    }
}

/// What the archive's call leaves, or which byte it should not have touched.
pub fn ours(call: Call, input: &Input) -> Result<Outcome, String> {
    let mut sheet = Lent::new(&input.sheet);
    let mut source = Lent::new(call.source(input));
    let mut destination = Lent::new(call.destination(input));
    let mut answer = Lent::new(&input.answer);
    // SAFETY: four buffers of their own; a byte touched outside them is a canary.
    let returned = unsafe {
        call.ours(sheet.lend(), source.lend(), input.target, destination.lend(), answer.lend())
    };
    sheet.only_read("sheet", &input.sheet)?;
    source.only_read(call.source_name(), call.source(input))?;
    let destination = destination.returned(call.destination_name())?;
    Ok(Outcome { returned, destination, answer: answer.returned("answer")? })
}

/// What the independent loader's call leaves.
pub fn papers(call: Call, input: &Input) -> Outcome {
    let mut destination = call.destination(input).to_vec();
    let mut answer = input.answer.clone();
    let source = call.source(input);
    let returned = call.papers(&input.sheet, source, input.target, &mut destination, &mut answer);
    Outcome { returned, destination, answer }
}
