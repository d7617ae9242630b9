//! The comparison in a process of its own, so that a call that crashes or never
//! returns is reported like any other failure. The process tells on its standard
//! output which call comes next; the last one told is the one that failed. Only
//! when that was the last of all, and the process ended well, was all compared.

use crate::calls::Call;
use crate::compare::{self, Which};
use crate::inputs::SAMPLE_INPUTS;
use std::io::{Read, Write};
use std::process::{Child, Command, ExitStatus, Stdio};
use std::sync::mpsc::{channel, Receiver, RecvTimeoutError};
use std::time::Duration;

/// A call that takes longer will not return.
const PATIENCE: Duration = Duration::from_secs(30);

/// The exit status of a process that said itself what failed: main's FAILURE.
const SAID: i32 = 1;

const TOLD_BYTES: usize = 24;

fn to_bytes(which: Which) -> Vec<u8> {
    [which.call as u64, which.seed, which.index].map(u64::to_be_bytes).concat()
}

fn from_bytes(told: [u8; TOLD_BYTES]) -> Which {
    let word = |at: usize| u64::from_be_bytes(told[at..at + 8].try_into().expect("8 bytes"));
    Which { call: Call::ALL[word(0) as usize], seed: word(8), index: word(16) }
}

/// The comparison itself.
pub fn compare_here(seed: u64, count: u64) -> Result<String, String> {
    let mut stdout = std::io::stdout().lock();
    compare::compare(seed, count, |which| {
        stdout.write_all(&to_bytes(which)).and_then(|()| stdout.flush()).expect("it is read");
    })?;
    Ok(String::new())
}

/// The calls that a process tells of, as they come.
fn listen(child: &mut Child) -> Receiver<Which> {
    let mut stdout = child.stdout.take().expect("a pipe");
    let (tell, told) = channel();
    std::thread::spawn(move || {
        let mut bytes = [0; TOLD_BYTES];
        while stdout.read_exact(&mut bytes).is_ok() && tell.send(from_bytes(bytes)).is_ok() {}
    });
    told
}

/// The last call told of, and how the process ended, if it did.
fn follow(child: &mut Child) -> Result<(Option<Which>, Option<ExitStatus>), std::io::Error> {
    let told = listen(child);
    let mut last = None;
    loop {
        match told.recv_timeout(PATIENCE) {
            Ok(which) => last = Some(which),
            Err(RecvTimeoutError::Disconnected) => return Ok((last, Some(child.wait()?))),
            Err(RecvTimeoutError::Timeout) => {
                child.kill()?;
                child.wait()?;
                return Ok((last, None));
            }
        }
    }
}

pub fn compare(seed: u64, count: u64) -> Result<String, String> {
    let told = |error: std::io::Error| format!("the comparison cannot run: {error}");
    let mut child = Command::new(std::env::current_exe().map_err(told)?)
        .args(["compare-here", &seed.to_string(), &count.to_string()])
        .stdout(Stdio::piped())
        .spawn()
        .map_err(told)?;
    let inputs = SAMPLE_INPUTS + count;
    let end = compare::last(seed, count);
    match follow(&mut child).map_err(told)? {
        (Some(which), Some(status)) if status.success() && which == end => {
            let calls = Call::ALL.len() as u64 * inputs;
            Ok(format!("{inputs} inputs, {calls} calls, every refusal of each call met"))
        }
        (_, Some(status)) if status.code() == Some(SAID) => Err(String::new()),
        (Some(which), status) => {
            let end = status.map_or("did not return".to_string(), |status| status.to_string());
            Err(compare::report_end(which, end))
        }
        (None, _) => Err("the comparison stopped before its first call".to_string()),
    }
}
