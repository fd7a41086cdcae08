//! Does the work of a roll many times over, to be timed: `benchmark CHECKS RUNS
//! FILE` checks the policy of the file CHECKS times more than once, and then
//! decides the events after it RUNS times on one monitor.

use std::error::Error;
use std::hint::black_box;
use std::{env, fs};

use reference::hierarchy::Hierarchy;
use reference::monitor::Monitor;
use reference::policy::Policy;
use reference::run::{run, Outcome, Row};
use reference::verdict;

/// Enough for all the events of any input.
const ROWS: usize = 32_768;

/// The policy at the front of the bytes, if it passes, and how many bytes it
/// took.
fn checked(bytes: &[u8]) -> Option<(Policy, Hierarchy, usize)> {
    let (policy, read) = Policy::read(bytes).ok()?;
    let hierarchy = Hierarchy::new(&policy.inherits);
    match verdict::flaw(&policy, &hierarchy) {
        None => Some((policy, hierarchy, read)),
        Some(_) => None,
    }
}

fn main() -> Result<(), Box<dyn Error>> {
    let arguments: Vec<String> = env::args().skip(1).collect();
    let [checks, runs, file] = &arguments[..] else {
        return Err("usage: benchmark CHECKS RUNS FILE".into());
    };
    let bytes = fs::read(file)?;
    for _ in 0..checks.parse()? {
        black_box(checked(black_box(&bytes)));
    }
    let (policy, hierarchy, read) = checked(&bytes).ok_or("the policy does not pass")?;
    println!("policy 0 {read} 0 0 0 0");
    let mut monitor = Monitor::new(policy, hierarchy);
    let mut rows = vec![Row::default(); ROWS];
    let mut last = Outcome::default();
    for _ in 0..runs.parse()? {
        last = run(&mut monitor, &bytes[read..], black_box(&mut rows));
    }
    println!("end {} {} {}", last.rows, last.bytes, last.end);
    Ok(())
}
