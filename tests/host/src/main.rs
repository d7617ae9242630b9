//! Tests from outside: tests/run and tests/bench start them.

mod budgets;
mod calls;
mod compare;
mod damage;
mod documents;
mod floats;
mod guard;
mod guarded;
mod inputs;
mod limits;
mod lists;
mod named;
mod paper;
mod program;
mod random;
mod ranges;
mod sheets;
mod speed;
mod stack;
mod totals;

use calls::Call;
use compare::Which;
use std::path::Path;
use std::process::ExitCode;

const SEED: u64 = 1;
const COUNT: u64 = 41_000;

fn number(word: &str) -> Result<u64, String> {
    word.parse().map_err(|_| format!("'{word}' is not a number"))
}

fn call(word: &str) -> Result<Call, String> {
    let call = Call::ALL.into_iter().find(|call| call.name() == word);
    call.ok_or_else(|| format!("'{word}' is not one of the nine calls"))
}

fn run(words: &[&str]) -> Result<String, String> {
    match words {
        ["compare"] => guard::compare(SEED, COUNT),
        ["compare", seed, count] => guard::compare(number(seed)?, number(count)?),
        ["compare-here", seed, count] => guard::compare_here(number(seed)?, number(count)?),
        ["bench-program", program] => program::compare(Path::new(program)),
        ["examples", program, folder] => program::examples(Path::new(program), Path::new(folder)),
        ["one", program, "bench", index] => program::one(Path::new(program), number(index)?),
        ["one", program, "example", name] => {
            let path = Path::new("examples").join(name).with_extension("hex");
            program::example(Path::new(program), &path)?;
            program::printed_for(&path)
        }
        ["one", _, "ranges", index] => ranges::one(number(index)?),
        ["one", _, name, seed, index] => {
            compare::one(Which { call: call(name)?, seed: number(seed)?, index: number(index)? })
        }
        ["ranges"] => ranges::compare(),
        ["printed", path] => program::printed_for(Path::new(path)),
        ["speed"] => Ok(speed::table()),
        ["stack", most] => speed::stack(number(most)?),
        ["named"] => named::check(),
        ["documents", folder, without @ ..] => documents::run(Path::new(folder), without),
        _ => Err(format!("not understood: {}", words.join(" "))),
    }
}

/// A text with one newline at its end, or nothing.
fn ended(text: &str) -> String {
    match text.trim_end() {
        "" => String::new(),
        text => format!("{text}\n"),
    }
}

fn main() -> ExitCode {
    let words: Vec<String> = std::env::args().skip(1).collect();
    let words: Vec<&str> = words.iter().map(String::as_str).collect();
    match run(&words) {
        Ok(said) => {
            print!("{}", ended(&said));
            ExitCode::SUCCESS
        }
        Err(failure) => {
            eprint!("{}", ended(&failure));
            ExitCode::FAILURE
        }
    }
}
