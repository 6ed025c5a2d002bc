//! A stored corpus of small cases, one to a line, and the answers to it.

use crate::fault::{Fault, Stop};
use crate::generate;
use crate::lay;
use crate::rings::{self, Finding};
use crate::script;
use crate::scripts::Writer;
use crate::shapes::{Plan, Size, star};
use std::io::{self, BufRead, Write};

/// One case in so many has a full door, and is large.
const FULL_DOOR: u64 = 2000;

pub fn write(seed: u64, count: u64, out: &mut impl Write) -> io::Result<()> {
    for number in 0..count {
        if number % FULL_DOOR == FULL_DOOR / 2 {
            let (cables, script) = full_door();
            writeln!(out, "run {} {}", hex(&cables), hex(&script))?;
            continue;
        }
        let case = generate::case(seed, number, Size::Small);
        match number % 10 {
            0..3 => writeln!(out, "lay {}", hex(&case.cables))?,
            3..7 => writeln!(out, "run {} {}", hex(&case.cables), hex(&case.script))?,
            _ => writeln!(out, "rings {}", hex(&case.table))?,
        }
    }
    Ok(())
}

/// As many blocks as may wait, a round, as many as are let in again, and one more.
fn full_door() -> (Vec<u8>, Vec<u8>) {
    let plan = Plan {
        n: 3,
        m: 1,
        cables: star(3),
    };
    let mut w = Writer::new(3);
    for i in 0..4096 {
        w.block(1, i % 3);
    }
    w.round();
    for _ in 0..4 {
        w.block(1, 2);
    }
    (plan.bytes(), w.bytes)
}

/// For each case a line: status, fault, offset, digest of what is printed.
pub fn answer(input: impl BufRead, out: &mut impl Write) -> Result<(), String> {
    for (number, line) in input.lines().enumerate() {
        let line = line.map_err(|error| format!("corpus: {error}"))?;
        let answer =
            answer_line(&line).ok_or_else(|| format!("corpus: line {} is no case", number + 1))?;
        writeln!(out, "{answer}").map_err(|error| format!("standard output: {error}"))?;
    }
    Ok(())
}

fn answer_line(line: &str) -> Option<String> {
    let words: Vec<&str> = line.split(' ').collect();
    let (name, files) = words.split_first()?;
    let files: Vec<Vec<u8>> = files
        .iter()
        .map(|word| unhex(word))
        .collect::<Option<_>>()?;
    let mut printed = Vec::new();
    let done = match (*name, files.as_slice()) {
        ("lay", [cables]) => lay_case(cables, &mut printed),
        ("run", [cables, script]) => run_case(cables, script, &mut printed),
        ("rings", [table]) => rings_case(table, &mut printed),
        _ => return None,
    };
    let (status, number, offset) = match done {
        Ok(status) => (status, 0, 0),
        Err(fault) => (1, fault.number, fault.offset),
    };
    Some(format!(
        "{status} {number} {offset} {:016x}",
        digest(&printed)
    ))
}

pub fn lay_case(cables: &[u8], printed: &mut Vec<u8>) -> Result<u8, Fault> {
    let laid = lay::lay(cables)?;
    lay::print(&laid, printed).expect("written to memory");
    Ok(0)
}

pub fn run_case(cables: &[u8], script: &[u8], printed: &mut Vec<u8>) -> Result<u8, Fault> {
    let laid = lay::lay(cables)?;
    match script::play(&laid, script, printed) {
        Ok(()) => Ok(0),
        Err(Stop::Fault(fault)) => Err(fault),
        Err(Stop::Output(error)) => panic!("written to memory: {error}"),
    }
}

pub fn rings_case(table: &[u8], printed: &mut Vec<u8>) -> Result<u8, Fault> {
    let finding = rings::find(&rings::read(table)?);
    rings::print(&finding, printed).expect("written to memory");
    Ok(u8::from(matches!(finding, Finding::Ring(_))))
}

/// FNV-1a of 64 bits.
pub fn digest(bytes: &[u8]) -> u64 {
    bytes.iter().fold(0xcbf2_9ce4_8422_2325, |hash, &byte| {
        (hash ^ u64::from(byte)).wrapping_mul(0x100_0000_01b3)
    })
}

/// `-` for an empty file.
pub fn hex(bytes: &[u8]) -> String {
    if bytes.is_empty() {
        return "-".to_string();
    }
    bytes.iter().map(|byte| format!("{byte:02x}")).collect()
}

pub fn unhex(word: &str) -> Option<Vec<u8>> {
    if word == "-" {
        return Some(Vec::new());
    }
    let digits: Vec<u32> = word
        .chars()
        .map(|c| c.to_digit(16))
        .collect::<Option<_>>()?;
    if digits.is_empty() || digits.len() % 2 == 1 {
        return None;
    }
    Some(
        digits
            .chunks(2)
            .map(|pair| (pair[0] * 16 + pair[1]) as u8)
            .collect(),
    )
}
