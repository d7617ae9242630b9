//! The archive and the independent loader on the same inputs.

use crate::calls::{self, Call, Outcome};
use crate::inputs::{input, Input, SAMPLE_INPUTS};
use crate::paper::line::LARGEST_SHEET;
use crate::{budgets, guarded, limits, totals};

/// One input of one call.
#[derive(Clone, Copy, PartialEq, Eq)]
pub struct Which {
    pub call: Call,
    pub seed: u64,
    pub index: u64,
}

/// How often each call gave each number, 0 to 16.
#[derive(Default)]
struct Tally([[u64; 17]; Call::ALL.len()]);

impl Tally {
    fn count(&mut self, call: Call, returned: u64) {
        self.0[call as usize][(returned >> 32) as usize] += 1;
    }

    /// A call and a number that it can give and that no input led to.
    fn missing(&self) -> Option<(Call, u64)> {
        let mut all = Call::ALL.iter().flat_map(|&call| {
            let numbers = std::iter::once(0).chain(call.refusals().iter().copied());
            numbers.map(move |number| (call, number))
        });
        all.find(|&(call, number)| self.0[call as usize][number as usize] == 0)
    }
}

/// Compares every input of seed 0 and the first `count` of another seed. Before
/// each call `tell` hears of it.
pub fn compare(seed: u64, count: u64, mut tell: impl FnMut(Which)) -> Result<(), String> {
    let mut tally = Tally::default();
    for (seed, count) in [(0, SAMPLE_INPUTS), (seed, count)] {
        for index in 0..count {
            let input = input(seed, index);
            for call in Call::ALL {
                tell(Which { call, seed, index });
                let paper = calls::papers(call, &input);
                tally.count(call, paper.returned);
                if calls::ours(call, &input).as_ref() != Ok(&paper) {
                    return Err(report(Which { call, seed, index }));
                }
                judge(call, &input, &paper).map_err(|fault| {
                    let which = Which { call, seed, index };
                    format!("{}{fault}\n{}", given(call, &input), again(which))
                })?;
            }
        }
    }
    match tally.missing() {
        Some((call, number)) => {
            Err(format!("no input led {} to {number}: too few inputs", call.name()))
        }
        None => Ok(()),
    }
}

/// An outcome on which both agree, against itself and against our other calls.
fn judge(call: Call, input: &Input, outcome: &Outcome) -> Result<(), String> {
    match call {
        _ if outcome.returned != 0 => Ok(()),
        Call::Check | Call::Tidy => Ok(()),
        Call::Limits => limits::judge(input, outcome),
        Call::Budgets => budgets::judge(input, outcome),
        Call::Guarded => guarded::judge(input, outcome),
        _ => totals::judge(call, input, outcome),
    }
}

/// The last that such a comparison tells of.
pub fn last(seed: u64, count: u64) -> Which {
    let (seed, count) = if count == 0 { (0, SAMPLE_INPUTS) } else { (seed, count) };
    Which { call: Call::ALL[Call::ALL.len() - 1], seed, index: count - 1 }
}

/// One input again. What is given is printed before the call, which may not return.
pub fn one(which: Which) -> Result<String, String> {
    let input = input(which.seed, which.index);
    println!("{}", given(which.call, &input).trim_end());
    match calls::ours(which.call, &input) {
        Ok(ours) if ours == calls::papers(which.call, &input) => {
            judge(which.call, &input, &ours)?;
            Ok(format!("both:  {}", shown(&ours)))
        }
        ours => Err(judged(which, &input, ours)),
    }
}

/// Bytes in hex; of more than any sheet should have, the first.
pub fn hex(bytes: &[u8]) -> String {
    const SHOWN: usize = LARGEST_SHEET + 1_000;
    let words: Vec<String> = bytes.iter().take(SHOWN).map(|byte| format!("{byte:02x}")).collect();
    match bytes.len() {
        0 => "nothing".to_string(),
        1..=SHOWN => words.join(" "),
        length => format!("{} and {} more", words.join(" "), length - SHOWN),
    }
}

fn given(call: Call, input: &Input) -> String {
    let mut text = format!("{}\n", call.entry_name());
    text += &format!("  sheet, {} bytes: {}\n", input.sheet.len(), hex(&input.sheet));
    if matches!(call, Call::Refit | Call::RefitStep | Call::Budgets) {
        let (name, source) = (call.source_name(), call.source(input));
        text += &format!("  {name}, {} bytes: {}\n", source.len(), hex(source));
    }
    if call == Call::LoadTarget {
        text += &format!("  target {}\n", input.target);
    }
    if call != Call::Check {
        let length = call.destination(input).len();
        text += &format!("  {} of {length} bytes\n", call.destination_name());
    }
    text + &format!("  answer of {} bytes\n", input.answer.len())
}

fn shown(outcome: &Outcome) -> String {
    let (number, place) = (outcome.returned >> 32, outcome.returned & 0xffff_ffff);
    let destination = hex(&outcome.destination);
    let answer = hex(&outcome.answer);
    format!("refusal {number}, place {place}\n  left: {destination}\n  answer: {answer}\n")
}

fn again(which: Which) -> String {
    format!("again: tests/run --one {} {} {}", which.call.name(), which.seed, which.index)
}

/// What came, what should have come, and how to run it again.
fn judged(which: Which, input: &Input, ours: Result<Outcome, String>) -> String {
    let paper = calls::papers(which.call, input);
    let ours = match ours {
        Ok(ours) => format!("{}{}", shown(&ours), difference(which.call, &ours, &paper)),
        Err(fault) => format!("{fault}\n"),
    };
    format!("ours:  {ours}paper: {}{}", shown(&paper), again(which))
}

/// All of an input on which the two differ.
fn report(which: Which) -> String {
    let input = input(which.seed, which.index);
    given(which.call, &input) + &judged(which, &input, calls::ours(which.call, &input))
}

/// All of an input on which the process ended: the paper's call may panic again.
pub fn report_end(which: Which, end: String) -> String {
    let input = input(which.seed, which.index);
    let judged = std::panic::catch_unwind(|| judged(which, &input, Err(end)));
    let judged = judged.unwrap_or_else(|_| format!("paper: panicked\n{}", again(which)));
    given(which.call, &input) + &judged
}

fn difference(call: Call, ours: &Outcome, paper: &Outcome) -> String {
    let first = |ours: &[u8], paper: &[u8]| ours.iter().zip(paper).position(|(a, b)| a != b);
    let mut text = String::new();
    if ours.returned != paper.returned {
        text += &format!("  returned {}, not {}\n", ours.returned, paper.returned);
    }
    for (name, ours, paper) in [
        (call.destination_name(), &ours.destination, &paper.destination),
        ("answer", &ours.answer, &paper.answer),
    ] {
        if let Some(at) = first(ours, paper) {
            text +=
                &format!("  byte {at} of the {name}: {:02x}, not {:02x}\n", ours[at], paper[at]);
        }
    }
    text
}
