//! A second program for the fabric's files, to be compared with the first.
//! Written from docs/RULES.md and docs/FORMATS.md alone.

mod bench;
mod cables;
mod compare;
mod corpus;
mod fault;
mod generate;
mod lay;
mod rings;
mod rng;
mod round;
mod script;
mod scripts;
mod shapes;
mod table;
mod tables;
#[cfg(test)]
mod tests;
mod timing;
mod tree;
mod waits;

use fault::Stop;
use std::ffi::{OsStr, OsString};
use std::fs;
use std::io::{self, BufWriter, Read, Write};
use std::path::{Path, PathBuf};
use std::process::ExitCode;

const USAGE: &str = "usage: peer lay CABLES | run CABLES SCRIPT | rings TABLE | \
generate SEED COUNT DIR | corpus SEED COUNT | answers | \
compare BIN_DIR SEED COUNT [DIR] | bench BIN_DIR | bench-case NAME .. | help";

const HELP: &str = "\
peer lay CABLES                   what follows from a cables file
peer run CABLES SCRIPT            plays a script
peer rings TABLE                  the smallest ring of a foreign table, or ranks
peer generate SEED COUNT DIR      writes cases: DIR/0000.cables, .script, .table, DIR/0001.cables ..
peer corpus SEED COUNT            writes small cases as lines: lay HEX | run HEX HEX | rings HEX (- is an empty file)
peer answers                      reads such lines, writes for each: status fault offset digest
                                  (fault and offset 0 if not refused; digest: 64-bit FNV-1a of standard output)
peer compare BIN_DIR SEED COUNT [DIR]
                                  plays COUNT fresh cases through BIN_DIR/lay, run and rings, and compares them with
                                  its own answers: output, status, refusal; what differs stays in DIR
peer bench BIN_DIR                times of BIN_DIR/lay, run and rings and its own, by turns, and the most memory of run
peer bench-case NAME ..           writes input files for benchmark jobs:
    grid M CABLES                          8 by 8 switches, numbered row by row
    star M CABLES                          64 switches, all others joined to switch 0
    random M SEED CABLES                   64 switches, 128 random cables, accepted
    saturated M ROUNDS SEED CABLES SCRIPT  the grid, and rounds on it with no door ever empty
    ringless SEED TABLE                    320 channels, 64 places, no ring
    long-ring SEED TABLE                   320 channels, 64 places, one ring of 256 members
    smallest CABLES SCRIPT TABLE           5, 0 and 4 bytes
peer help                         this text
";

/// Why the program ends with status 1 and a line on standard error.
enum End {
    Usage,
    Line(String),
    Stop(Stop),
}

impl<T: Into<Stop>> From<T> for End {
    fn from(stop: T) -> End {
        End::Stop(stop.into())
    }
}

fn main() -> ExitCode {
    let args: Vec<OsString> = std::env::args_os().skip(1).collect();
    let mut out = BufWriter::with_capacity(1 << 16, io::stdout().lock());
    let done = command(&args, &mut out);
    let written = out.flush();
    let line = match (done, written) {
        (Ok(status), Ok(())) => return ExitCode::from(status),
        (Err(End::Usage), _) => USAGE.to_string(),
        (Err(End::Line(line)), _) => line,
        (Err(End::Stop(Stop::Fault(fault))), _) => fault.line(),
        (Err(End::Stop(Stop::Output(error))), _) | (_, Err(error)) => {
            format!("standard output: {error}")
        }
    };
    let _ = writeln!(io::stderr(), "{line}");
    ExitCode::from(1)
}

fn command(args: &[OsString], out: &mut impl Write) -> Result<u8, End> {
    let (name, rest) = args.split_first().ok_or(End::Usage)?;
    match (name.to_str().unwrap_or(""), rest) {
        ("lay", [cables]) => lay_command(cables, out),
        ("run", [cables, script]) => run_command(cables, script, out),
        ("rings", [table]) => rings_command(table, out),
        ("generate", [seed, count, dir]) => generate_command(number(seed)?, number(count)?, dir),
        ("corpus", [seed, count]) => {
            corpus::write(number(seed)?, number(count)?, out)?;
            Ok(0)
        }
        ("answers", []) => {
            corpus::answer(io::stdin().lock(), out).map_err(End::Line)?;
            Ok(0)
        }
        ("compare", [bin, seed, count, rest @ ..]) if rest.len() < 2 => {
            let (seed, count) = (number(seed)?, number(count)?);
            compare_command(bin, seed, count, rest.first(), out)
        }
        ("bench", [bin]) => {
            timing::time(Path::new(bin), &timing::fresh_dir(), out)
                .map_err(|error| End::Line(format!("bench: {error}")))?;
            Ok(0)
        }
        ("bench-case", [name, rest @ ..]) => bench_command(name.to_str().unwrap_or(""), rest),
        ("help", []) => {
            out.write_all(HELP.as_bytes())?;
            Ok(0)
        }
        _ => Err(End::Usage),
    }
}

fn number(word: &OsStr) -> Result<u64, End> {
    word.to_str()
        .and_then(|word| word.parse().ok())
        .ok_or(End::Usage)
}

fn read_file(name: &OsStr) -> Result<Vec<u8>, End> {
    let mut bytes = Vec::new();
    let read = match name == "-" {
        true => io::stdin().lock().read_to_end(&mut bytes).map(|_| bytes),
        false => fs::read(name),
    };
    read.map_err(|error| End::Line(format!("{}: {error}", name.display())))
}

fn write_file(name: &OsStr, bytes: &[u8]) -> Result<(), End> {
    fs::write(name, bytes).map_err(|error| End::Line(format!("{}: {error}", name.display())))
}

fn lay_command(cables: &OsStr, out: &mut impl Write) -> Result<u8, End> {
    let laid = lay::lay(&read_file(cables)?)?;
    lay::print(&laid, out)?;
    Ok(0)
}

fn run_command(cables: &OsStr, script: &OsStr, out: &mut impl Write) -> Result<u8, End> {
    let laid = lay::lay(&read_file(cables)?)?;
    // Standard input is read once; nothing of it is left for the script.
    let both = cables == "-" && script == "-";
    let bytes = if both { Vec::new() } else { read_file(script)? };
    script::play(&laid, &bytes, out)?;
    Ok(0)
}

fn rings_command(table: &OsStr, out: &mut impl Write) -> Result<u8, End> {
    let hands = rings::read(&read_file(table)?)?;
    let finding = rings::find(&hands);
    rings::print(&finding, out)?;
    Ok(u8::from(matches!(finding, rings::Finding::Ring(_))))
}

fn generate_command(seed: u64, count: u64, dir: &OsStr) -> Result<u8, End> {
    let written = generate::write_cases(seed, count, Path::new(dir));
    written.map_err(|error| End::Line(format!("{}: {error}", dir.display())))?;
    Ok(0)
}

fn compare_command(
    bin: &OsStr,
    seed: u64,
    count: u64,
    dir: Option<&OsString>,
    out: &mut impl Write,
) -> Result<u8, End> {
    let dir = dir.map_or_else(|| compare::fresh_dir(seed), PathBuf::from);
    let tally = compare::compare(Path::new(bin), seed, count, &dir, out)
        .map_err(|error| End::Line(format!("compare: {error}")))?;
    Ok(u8::from(tally.differences > 0))
}

fn bench_command(name: &str, args: &[OsString]) -> Result<u8, End> {
    match (name, args) {
        ("grid", [m, file]) => write_file(file, &bench::grid_cables(store(m)?))?,
        ("star", [m, file]) => write_file(file, &bench::star_cables(store(m)?))?,
        ("random", [m, seed, file]) => {
            write_file(file, &bench::random_cables(store(m)?, number(seed)?))?
        }
        ("saturated", [m, rounds, seed, cables, script]) => {
            let (m, rounds, seed) = (store(m)?, number(rounds)? as usize, number(seed)?);
            write_file(cables, &bench::grid_cables(m))?;
            write_file(script, &bench::saturated_script(m, rounds, seed))?;
        }
        ("ringless", [seed, file]) => write_file(file, &bench::ringless_table(number(seed)?))?,
        ("long-ring", [seed, file]) => write_file(file, &bench::long_ring_table(number(seed)?))?,
        ("smallest", [cables, script, table]) => {
            for (file, bytes) in [cables, script, table].into_iter().zip(bench::smallest()) {
                write_file(file, &bytes)?;
            }
        }
        _ => return Err(End::Usage),
    }
    Ok(0)
}

/// A store that is allowed.
fn store(word: &OsStr) -> Result<usize, End> {
    let m = number(word)? as usize;
    if (1..=cables::MOST_STORE).contains(&m) {
        Ok(m)
    } else {
        Err(End::Usage)
    }
}
