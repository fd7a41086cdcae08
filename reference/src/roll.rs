//! The roll: what is printed of an input.

use std::io::{self, Write};

use crate::event::Event;
use crate::hierarchy::Hierarchy;
use crate::monitor::Monitor;
use crate::policy::Policy;
use crate::verdict;

/// The most bytes that are read.
pub const INPUT_LIMIT: usize = 65_536;

/// Writes the roll of the input, in many small pieces: hand it a buffer.
pub fn write_roll(input: &[u8], out: &mut impl Write) -> io::Result<()> {
    if input.len() > INPUT_LIMIT {
        return out.write_all(b"input 9\n");
    }
    match Policy::read(input) {
        Err(refusal) => {
            let number = refusal.fault as usize;
            write_line(out, "policy ", &[number, refusal.place, 0, 0, 0, 0])
        }
        Ok((policy, read)) => {
            let hierarchy = Hierarchy::new(&policy.inherits);
            if let Some(flaw) = verdict::flaw(&policy, &hierarchy) {
                let [a, b, c, d] = flaw.names();
                return write_line(out, "policy ", &[flaw.number().into(), read, a, b, c, d]);
            }
            write_line(out, "policy ", &[0, read, 0, 0, 0, 0])?;
            write_events(Monitor::new(policy, hierarchy), &input[read..], out)
        }
    }
}

/// Decides the events in order, a row for each, and then the line of the end.
fn write_events(mut monitor: Monitor, bytes: &[u8], out: &mut impl Write) -> io::Result<()> {
    let mut rest = bytes;
    let mut rows = 0;
    let stop = loop {
        let (event, after) = match Event::take(rest) {
            Ok(taken) => taken,
            Err(stop) => break stop,
        };
        let answer = monitor.decide(event);
        let row = [
            rows,
            event.kind().into(),
            answer.number().into(),
            answer.subject(),
            answer.place().into(),
            answer.roles() as usize,
        ];
        write_line(out, "", &row)?;
        rows += 1;
        rest = after;
    };
    write_line(
        out,
        "end ",
        &[rows, bytes.len() - rest.len(), stop as usize],
    )
}

/// The word, the numbers in decimal with a space between them, and a newline.
fn write_line(out: &mut impl Write, word: &str, numbers: &[usize]) -> io::Result<()> {
    out.write_all(word.as_bytes())?;
    for (index, &number) in numbers.iter().enumerate() {
        if index > 0 {
            out.write_all(b" ")?;
        }
        write_decimal(out, number)?;
    }
    out.write_all(b"\n")
}

/// A number in decimal. Rows are many, and `write!` takes several times as long.
fn write_decimal(out: &mut impl Write, mut number: usize) -> io::Result<()> {
    let mut digits = [0; 20];
    let mut start = digits.len();
    loop {
        start -= 1;
        digits[start] = b'0' + (number % 10) as u8;
        number /= 10;
        if number == 0 {
            return out.write_all(&digits[start..]);
        }
    }
}

#[cfg(test)]
mod tests {
    use super::*;

    #[test]
    fn decimals() {
        for number in [0, 7, 10, 255, 65_536, u32::MAX as usize, usize::MAX] {
            let mut text = Vec::new();
            write_decimal(&mut text, number).unwrap();
            assert_eq!(text, number.to_string().into_bytes());
        }
    }
}
