//! Our time and the independent loader's, side by side; what the time of a step, and that
//! of the limits, goes to; the time of many budgets beside that of loadings; and that of the
//! guarded loading beside the plain one. The lines are document 01's sample, of three tones,
//! and cables.

use crate::calls::{self, Buffer, Call};
use crate::inputs::Input;
use crate::lists::{powers, to_bytes};
use crate::paper::budgets::{
    in_one_pass, one_by_one, BYTES_A_BUDGET, BYTES_OF_TOTALS, MOST_BUDGETS,
};
use crate::paper::gap::Gap;
use crate::paper::guarded::guarded as paper_guarded;
use crate::paper::line::{cost, read, Line, LARGEST_POWER};
use crate::paper::reading::Reading;
use crate::paper::run::Running;
use crate::paper::{ANSWER_BYTES, BYTES_A_LIMIT, BYTES_A_TONE};
use crate::sheets::{bare, high_noise, reading, rest, silence, tone, with_budget, SAMPLE};
use crate::stack;
use crate::totals::number;
use std::hint::black_box;
use std::time::{Duration, Instant};

/// Each time is the best of so many, ours and the paper's by turns.
const ROUNDS: usize = 41;
/// A round has as many calls as take about so long.
const ROUND: Duration = Duration::from_millis(1);
/// How many tones the lines have.
const TONES: [usize; 4] = [16, 64, 256, 1024];
/// In the place of 256, so many tones by 09 and, without high noises, so many with a rest
/// each.
const SHORT_OF_09: usize = 214;
const SHORT_WITH_RESTS: usize = 194;

/// How the tones of a line are given.
#[derive(Clone, Copy, PartialEq, Eq)]
enum By {
    /// By 04, and the two at the ends by 05.
    Whole,
    /// All by 09.
    Floats,
    /// All by 0A.
    Ratio,
}

/// A line to be timed: a cable, or four costs whose steps meet all the time.
#[derive(Clone, Copy)]
struct Shape {
    name: &'static str,
    /// Whether the budget carries half of what the limits allow, or all.
    bound: bool,
    ties: bool,
    gap: Gap,
    by: By,
    /// Whether each tone has a rest.
    rests: bool,
    /// Whether each tone has a high noise, of twice its noise.
    ranges: bool,
}

/// 12 dB.
const CABLE_GAP: Gap = Gap::Whole(4057);
const NO_GAP: Gap = Gap::Whole(256);

/// The first: the others are like it, but for what they name.
const BOUND: Shape = Shape {
    name: "bound",
    bound: true,
    ties: false,
    gap: CABLE_GAP,
    by: By::Whole,
    rests: false,
    ranges: false,
};

const UNBOUND: Shape = Shape { name: "unbound", bound: false, ..BOUND };
const RESTED: Shape = Shape { name: "bound, rests", rests: true, ..BOUND };

const SHAPES: [Shape; 9] = [
    BOUND,
    Shape { name: "bound, tenths", gap: Gap::Tenths(120), ..BOUND },
    UNBOUND,
    Shape { name: "bound, ties", ties: true, gap: NO_GAP, ..BOUND },
    Shape { name: "unbound, ties", bound: false, ties: true, gap: NO_GAP, ..BOUND },
    Shape { name: "bound, floats", by: By::Floats, ..BOUND },
    Shape { name: "bound, ratios", by: By::Ratio, ..BOUND },
    RESTED,
    Shape { name: "bound, ties, rests", ties: true, gap: NO_GAP, rests: true, ..BOUND },
];

/// The lines on which many budgets are timed.
const WITH_BUDGETS: [Shape; 3] = [BOUND, UNBOUND, RESTED];

/// The lines on which the guarded loading is timed. On the last, each tone has all that it may
/// have.
const WITH_RANGES: [Shape; 3] = [
    Shape { name: "bound, high noises", ranges: true, ..BOUND },
    Shape { name: "unbound, high noises", ranges: true, ..UNBOUND },
    Shape { name: "bound, rests, high noises", ranges: true, ..RESTED },
];

/// Each line of each number of tones, or of those in its place.
fn lines<const N: usize>(shapes: [Shape; N]) -> impl Iterator<Item = (usize, Shape)> {
    TONES.into_iter().flat_map(move |tones| shapes.map(|shape| (shape.tones(tones), shape)))
}

impl Shape {
    fn tones(self, tones: usize) -> usize {
        match self.by {
            By::Floats if tones == 256 => SHORT_OF_09,
            _ if self.rests && !self.ranges && tones == 256 => SHORT_WITH_RESTS,
            _ => tones,
        }
    }

    /// Gain falls and noise rises; single tones at both ends; two silenced.
    fn sheet(self, tones: usize) -> Vec<u8> {
        let mut commands = bare(tones, self.gap, LARGEST_POWER);
        for number in 0..tones {
            let share = number * 256 / tones;
            let (noise, gain) = match self.ties {
                true => ([3, 12, 6, 24][number % 4], 1),
                false => (20 + share / 3, 60_000 / (1 + share * share / 64)),
            };
            let tone = self.tone(tones, number, noise as u16, gain as u16);
            commands.insert(commands.len() - 1, tone);
            if self.rests {
                // Half the cost: on the best tones of a cable, which cost 1, it is 0.
                let cost = cost(self.gap.value(), noise as u16, gain as u16);
                commands.insert(commands.len() - 1, rest(number, cost as u32 / 2));
            }
            if self.ranges {
                commands.insert(commands.len() - 1, high_noise(number, 2 * noise as u16));
            }
        }
        commands.insert(commands.len() - 1, silence(0, 1 << 5 | 1 << 9));
        if self.bound {
            let mut run = Running::nothing(&read(&commands.concat()).expect("a valid sheet"));
            let bits: u64 = run.limit.iter().map(|bits| u64::from(*bits)).sum();
            while run.total_bits < bits / 2 && run.add() {}
            commands[2][1..].copy_from_slice(&run.total_power.to_be_bytes());
        }
        commands.concat()
    }

    /// A reading is never of a single tone.
    fn tone(self, tones: usize, number: usize, noise: u16, gain: u16) -> Vec<u8> {
        const MASK: u64 = 40_000;
        let single = number == 0 || number == tones - 1;
        let floats = [noise, gain].map(f32::from);
        match self.by {
            By::Whole => tone(single, number, noise, gain, if single { 7 } else { 15 }, MASK),
            By::Floats => {
                let [noise, gain] = floats.map(f32::to_bits);
                reading(number, Reading::NoiseAndGain(noise, gain), 15, MASK)
            }
            By::Ratio => {
                let ratio = floats[0] / floats[1];
                reading(number, Reading::Ratio(ratio.to_bits()), 15, MASK)
            }
        }
    }

    /// A bound line is re-fitted from the full table, an unbound one from no bits.
    /// With ties only the upper half is full, so that it takes exchanges.
    fn start(self, line: &Line) -> Vec<u8> {
        let limit = Running::nothing(line).limit;
        let full = |tone: usize| match self.ties {
            true => tone >= line.tones / 2,
            false => self.bound,
        };
        (0..line.tones).map(|tone| if full(tone) { limit[tone] } else { 0 }).collect()
    }

    fn input(self, tones: usize) -> Input {
        let sheet = self.sheet(tones);
        let start = self.start(&read(&sheet).expect("a valid sheet"));
        input(sheet, start)
    }
}

/// The target is half of what most bits carries. The budgets are as many as a list may
/// have, from one for no bits to one for those, each with as many bits more.
fn input(sheet: Vec<u8>, start: Vec<u8>) -> Input {
    let line = read(&sheet).expect("a valid sheet");
    let mut run = Running::nothing(&line);
    let powers = powers(&mut run);
    let bits = |budget| run.total_bits as usize * budget / (MOST_BUDGETS - 1);
    let budgets: Vec<u64> = (0..MOST_BUDGETS).map(|budget| powers[bits(budget)]).collect();
    Input {
        start,
        target: run.total_bits as u32 / 2,
        list: to_bytes(&budgets),
        table: vec![0; BYTES_A_TONE * line.tones],
        tidy: vec![0; sheet.len()],
        answer: vec![0; ANSWER_BYTES],
        limits: vec![0; BYTES_A_LIMIT * line.tones],
        totals: vec![0; BYTES_OF_TOTALS * MOST_BUDGETS],
        sheet,
    }
}

/// Document 01's sample, re-fitted from its own start in three moves.
fn sample() -> Input {
    input(SAMPLE.to_vec(), vec![0, 2, 3])
}

/// The time of one call, when so many are made.
fn time(calls: u32, mut call: impl FnMut() -> u64) -> f64 {
    let begin = Instant::now();
    for _ in 0..calls {
        black_box(call());
    }
    begin.elapsed().as_secs_f64() / f64::from(calls)
}

/// Sheet, source, destination and answer of a call, each a vector of its own.
fn lent(call: Call, input: &Input) -> [Vec<u8>; 4] {
    let (source, destination) = (call.source(input).to_vec(), call.destination(input).to_vec());
    [input.sheet.clone(), source, destination, input.answer.clone()]
}

fn buffers(lent: &mut [Vec<u8>; 4]) -> [Buffer; 4] {
    lent.each_mut().map(|bytes| (bytes.as_mut_ptr(), bytes.len()))
}

/// How many calls a round has, by the time of one.
fn calls_a_round(time: f64) -> u32 {
    (ROUND.as_secs_f64() / time.max(1e-8)).clamp(1.0, 20_000.0) as u32
}

/// Our call on buffers that are lent to it.
///
/// # Safety
/// The buffers must be distinct and as long as they say, whenever it is called.
unsafe fn our(call: Call, buffers: [Buffer; 4], target: u32) -> impl Fn() -> u64 + Copy {
    move || {
        let [sheet, source, destination, answer] = black_box(buffers);
        unsafe { call.ours(sheet, source, black_box(target), destination, answer) }
    }
}

fn assert_same(call: Call, input: &Input) {
    assert_eq!(calls::ours(call, input).as_ref(), Ok(&calls::papers(call, input)));
}

/// The best time of a call, ours and the paper's, in microseconds.
fn best(call: Call, input: &Input) -> (f64, f64) {
    assert_same(call, input);
    let mut lent = lent(call, input);
    // SAFETY: four vectors, each with its own length.
    let ours = unsafe { our(call, buffers(&mut lent), input.target) };
    let (mut table, mut answer) = (call.destination(input).to_vec(), input.answer.clone());
    let mut papers = || {
        let (sheet, source) = (black_box(&input.sheet), black_box(call.source(input)));
        call.papers(sheet, source, black_box(input.target), &mut table, &mut answer)
    };
    let calls = calls_a_round(time(1, ours));
    let (mut our_best, mut papers_best) = (f64::MAX, f64::MAX);
    for _ in 0..ROUNDS {
        our_best = our_best.min(time(calls, ours));
        papers_best = papers_best.min(time(calls, &mut papers));
    }
    (our_best * 1e6, papers_best * 1e6)
}

fn row(call: Call, input: &Input) -> String {
    let (ours, papers) = best(call, input);
    let mut lent = lent(call, input);
    // SAFETY: four vectors, each with its own length.
    let stack = unsafe { stack::used(call, buffers(&mut lent), input.target) };
    let ratio = ours / papers;
    format!("{:<12}{ours:>10.3}{papers:>10.3}{ratio:>8.2}{stack:>8}", call.name())
}

/// What the time of a single step goes to, told by three of our calls on one line: a
/// check reads the sheet; a target of no bits also works out the limits, ranks the
/// steps and writes a table; a step also judges, copies and moves its start.
fn parts_of_a_step(tones: usize) -> String {
    let input = Input { target: 0, ..BOUND.input(tones) };
    let time = |call| best(call, &input).0;
    let (read, none, step) = (time(Call::Check), time(Call::LoadTarget), time(Call::RefitStep));
    let (before, after) = (none - read, step - none);
    format!("{tones:>5}{read:>10.3}{before:>26.3}{after:>14.3}{step:>10.3}\n")
}

/// What the time of the limits of all tones goes to, told by two of our calls on one
/// line: a check reads the sheet; the limits also works them out and writes them.
fn parts_of_the_limits(tones: usize) -> String {
    let input = BOUND.input(tones);
    let time = |call| best(call, &input).0;
    let (read, all) = (time(Call::Check), time(Call::Limits));
    let limits = all - read;
    format!("{tones:>5}{read:>10.3}{limits:>10.3}{all:>10.3}\n")
}

/// The best times of some calls, made by turns, in microseconds.
fn best_by_turns<const N: usize>(mut calls: [&mut dyn FnMut() -> u64; N]) -> [f64; N] {
    let rounds = calls.each_mut().map(|call| calls_a_round(time(1, call)));
    let mut best = [f64::MAX; N];
    for _ in 0..ROUNDS {
        for (i, call) in calls.iter_mut().enumerate() {
            best[i] = best[i].min(time(rounds[i], call));
        }
    }
    best.map(|time| time * 1e6)
}

/// Our call for many budgets; beside it the paper's loading for each, its one pass for
/// all, and our loading for most bits at the largest of them, each with the ratio of our
/// call to it.
fn row_of_budgets(tones: usize, shape: Shape) -> String {
    let input = shape.input(tones);
    let largest = number(&input.list[input.list.len() - BYTES_A_BUDGET..]);
    let single = Input { sheet: with_budget(&input.sheet, largest), ..input.clone() };
    assert_same(Call::Budgets, &input);
    assert_same(Call::LoadMost, &single);
    let mut lent = [lent(Call::Budgets, &input), lent(Call::LoadMost, &single)];
    let [many, one] = lent.each_mut().map(buffers);
    // SAFETY: four vectors for each of the two, each with its own length.
    let (mut ours, mut loading, stack) = unsafe {
        let stack = stack::used(Call::Budgets, many, 0);
        (our(Call::Budgets, many, 0), our(Call::LoadMost, one, 0), stack)
    };
    let Input { sheet, list, totals, answer, .. } = &input;
    let [mut first, mut second] = [totals.clone(), totals.clone()];
    let mut each = || one_by_one(black_box(sheet), black_box(list), &mut first, answer);
    let mut pass = || in_one_pass(black_box(sheet), black_box(list), &mut second, answer);
    let times = best_by_turns([&mut ours, &mut each, &mut pass, &mut loading]);
    let [each, pass, loading] =
        [1, 2, 3].map(|i| format!("{:>12.3}{:>8.2}", times[i], times[0] / times[i]));
    let ours = times[0];
    format!("{tones:>5} {:<20}{ours:>10.3}{each}{pass}{loading}{stack:>8}\n", shape.name)
}

/// Our guarded loading; beside it the paper's, and our loading for most bits on the same
/// sheet, each with the ratio of our call to it.
fn row_of_guarded(tones: usize, shape: Shape) -> String {
    let input = shape.input(tones);
    assert_same(Call::Guarded, &input);
    assert_same(Call::LoadMost, &input);
    let mut lent = [Call::Guarded, Call::LoadMost].map(|call| lent(call, &input));
    let [guarded, plain] = lent.each_mut().map(buffers);
    // SAFETY: four vectors for each of the two, each with its own length.
    let (mut ours, mut loading, stack) = unsafe {
        let stack = stack::used(Call::Guarded, guarded, 0);
        (our(Call::Guarded, guarded, 0), our(Call::LoadMost, plain, 0), stack)
    };
    let (mut table, mut answer) = (input.table.clone(), input.answer.clone());
    let mut papers = || paper_guarded(black_box(&input.sheet), &mut table, &mut answer);
    let times = best_by_turns([&mut ours, &mut papers, &mut loading]);
    let [papers, loading] =
        [1, 2].map(|i| format!("{:>12.3}{:>8.2}", times[i], times[0] / times[i]));
    let ours = times[0];
    format!("{tones:>5} {:<26}{ours:>10.3}{papers}{loading}{stack:>8}\n", shape.name)
}

/// The rows of a line, one for each call. Many budgets and the guarded loading have rows of
/// their own.
fn rows(name: &str, input: &Input) -> String {
    let tones = input.start.len();
    let own = [Call::Budgets, Call::Guarded];
    let calls = Call::ALL.into_iter().filter(|call| !own.contains(call));
    calls.map(|call| format!("{tones:>5} {name:<20}{}\n", row(call, input))).collect()
}

/// One row for each line and call; times in microseconds, stack in bytes.
pub fn table() -> String {
    let mut table =
        "tones line                call          ours us  paper us   ratio   stack\n".to_string();
    table += &rows("sample", &sample());
    for (tones, shape) in lines(SHAPES) {
        table += &rows(shape.name, &shape.input(tones));
    }
    table += "\nours us of one re-fit step, bound\n";
    table += "tones   reading   limits, ranks, writing   start, move    in all\n";
    for tones in TONES {
        table += &parts_of_a_step(tones);
    }
    table += "\nours us of the limits of all tones, bound\n";
    table += "tones   reading    limits    in all\n";
    for tones in TONES {
        table += &parts_of_the_limits(tones);
    }
    table +=
        "\nours us of 32 budgets, the paper's one by one and in one pass, and our loading at the ";
    table += "largest; ratios of ours to each\n";
    table += "tones line                   ours us  one by one   ratio    one pass   ratio";
    table += " our loading   ratio   stack\n";
    for (tones, shape) in lines(WITH_BUDGETS) {
        table += &row_of_budgets(tones, shape);
    }
    table + &table_of_guarded()
}

fn table_of_guarded() -> String {
    let mut table =
        "\nours us of the guarded loading, the paper's, and our loading for most bits; ratios of "
            .to_string();
    table += "ours to each\n";
    table += "tones line                         ours us    paper us   ratio our loading   ratio";
    table += "   stack\n";
    for (tones, shape) in lines(WITH_RANGES) {
        table += &row_of_guarded(tones, shape);
    }
    table
}

/// The stack of every call of the host on every line, against the most that its header
/// states.
pub fn stack(most: u64) -> Result<String, String> {
    let mut largest = 0;
    let cables = lines(SHAPES).chain(lines(WITH_RANGES)).map(|(tones, shape)| shape.input(tones));
    for input in std::iter::once(sample()).chain(cables) {
        for call in Call::ALL.into_iter().filter(|call| call.is_of_host()) {
            let mut lent = lent(call, &input);
            // SAFETY: four vectors, each with its own length.
            let used = unsafe { stack::used(call, buffers(&mut lent), input.target) };
            largest = largest.max(used as u64);
        }
    }
    let said = format!("{largest} bytes at most; the header states {most}");
    if largest > most {
        return Err(said);
    }
    Ok(said)
}
