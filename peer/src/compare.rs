//! The programs of another folder against this one, run by run, on fresh cases.

use crate::corpus;
use crate::generate;
use crate::shapes::Size;
use std::fs;
use std::io::{self, Write};
use std::path::{Path, PathBuf};
use std::process::{Command, Stdio};

/// The programs, and the files that each is given.
const JOBS: [(&str, &[&str]); 3] = [
    ("lay", &["cables"]),
    ("run", &["cables", "script"]),
    ("rings", &["table"]),
];

/// What is to be compared of a run.
struct Ran {
    /// None if it was ended by a signal.
    status: Option<i32>,
    stdout: Vec<u8>,
    /// As much of standard error as is prescribed.
    told: String,
    /// 0 if it isn't known, or there is none.
    fault: u8,
}

#[derive(Default)]
pub struct Tally {
    pub runs: u64,
    pub differences: u64,
    /// How often the peer refused, by the fault's number; 0 is for what it took.
    faults: [u64; 11],
}

/// Plays cases of a seed through the programs in `bin`, and tells each
/// difference. The files of a case stay in `dir` if there is one.
pub fn compare(
    bin: &Path,
    seed: u64,
    count: u64,
    dir: &Path,
    out: &mut impl Write,
) -> io::Result<Tally> {
    fs::create_dir_all(dir)?;
    writeln!(out, "seed {seed} cases {count}")?;
    let mut tally = Tally::default();
    for number in 0..count {
        let before = tally.differences;
        let case = generate::case(seed, number, Size::Full);
        let files = [
            ("cables", case.cables),
            ("script", case.script),
            ("table", case.table),
        ];
        for (end, bytes) in &files {
            fs::write(file(dir, number, end), bytes)?;
        }
        for (program, ends) in JOBS {
            let given: Vec<&[u8]> = files
                .iter()
                .filter(|(end, _)| ends.contains(end))
                .map(|(_, bytes)| bytes.as_slice())
                .collect();
            let names: Vec<PathBuf> = ends.iter().map(|end| file(dir, number, end)).collect();
            let theirs = run(&bin.join(program), &names)?;
            let ours = answer(program, &given);
            tally.runs += 1;
            tally.faults[usize::from(ours.fault)] += 1;
            if let Some(how) = difference(&theirs, &ours) {
                tally.differences += 1;
                tell(out, program, &names, &how)?;
                fs::write(file(dir, number, &format!("{program}.got")), &theirs.stdout)?;
                fs::write(file(dir, number, &format!("{program}.peer")), &ours.stdout)?;
            }
        }
        if tally.differences == before {
            for (end, _) in &files {
                fs::remove_file(file(dir, number, end))?;
            }
        }
    }
    // Only a folder with nothing in it goes.
    let _ = fs::remove_dir(dir);
    write!(out, "taken {} refused", tally.faults[0])?;
    for (number, runs) in tally.faults.iter().enumerate().skip(1) {
        write!(out, " {number}:{runs}")?;
    }
    writeln!(
        out,
        "\n{} runs, {} differences",
        tally.runs, tally.differences
    )?;
    Ok(tally)
}

fn file(dir: &Path, number: u64, end: &str) -> PathBuf {
    dir.join(format!("{number:04}.{end}"))
}

fn tell(out: &mut impl Write, program: &str, names: &[PathBuf], how: &str) -> io::Result<()> {
    write!(out, "differs: {program}")?;
    for name in names {
        write!(out, " {}", name.display())?;
    }
    writeln!(out, ": {how}")?;
    out.flush()
}

fn run(program: &Path, files: &[PathBuf]) -> io::Result<Ran> {
    let output = Command::new(program)
        .args(files)
        .stdin(Stdio::null())
        .output()
        .map_err(|error| io::Error::new(error.kind(), format!("{}: {error}", program.display())))?;
    Ok(Ran {
        status: output.status.code(),
        stdout: output.stdout,
        told: prescribed(&String::from_utf8_lossy(&output.stderr)),
        fault: 0,
    })
}

/// What this program answers to the files.
fn answer(program: &str, files: &[&[u8]]) -> Ran {
    let mut stdout = Vec::new();
    let done = match (program, files) {
        ("lay", [cables]) => corpus::lay_case(cables, &mut stdout),
        ("run", [cables, script]) => corpus::run_case(cables, script, &mut stdout),
        ("rings", [table]) => corpus::rings_case(table, &mut stdout),
        _ => unreachable!("no such job"),
    };
    let (status, stderr, fault) = match done {
        Ok(status) => (status, String::new(), 0),
        Err(fault) => (1, format!("{}\n", fault.line()), fault.number),
    };
    Ran {
        status: Some(i32::from(status)),
        stdout,
        told: prescribed(&stderr),
        fault,
    }
}

/// Standard error without the words of a cause that are free. All of it if it
/// isn't one line of a refusal.
fn prescribed(stderr: &str) -> String {
    let one_line = stderr
        .strip_suffix('\n')
        .filter(|line| !line.contains('\n'));
    match one_line.and_then(|line| line.split_once(": ")) {
        Some((head, cause))
            if head.starts_with("refused ")
                && !head.starts_with("refused 4 ")
                && !cause.is_empty() =>
        {
            head.to_string()
        }
        _ => stderr.to_string(),
    }
}

/// How two runs differ, in a few words.
fn difference(theirs: &Ran, ours: &Ran) -> Option<String> {
    if theirs.status != ours.status {
        return Some(format!(
            "status {:?}, the peer {:?}; told {:?}, the peer {:?}",
            theirs.status, ours.status, theirs.told, ours.told
        ));
    }
    if theirs.told != ours.told {
        return Some(format!("told {:?}, the peer {:?}", theirs.told, ours.told));
    }
    if theirs.stdout != ours.stdout {
        return Some(format!(
            "{} bytes of output, the peer {}, first other byte {}",
            theirs.stdout.len(),
            ours.stdout.len(),
            first_other(&theirs.stdout, &ours.stdout)
        ));
    }
    None
}

fn first_other(a: &[u8], b: &[u8]) -> usize {
    a.iter().zip(b).take_while(|(x, y)| x == y).count()
}

/// A folder for one comparison.
pub fn fresh_dir(seed: u64) -> PathBuf {
    std::env::temp_dir().join(format!("peer-compare-{seed}-{}", std::process::id()))
}
