//! How long the programs of another folder take, and this one, job by job.

use crate::bench;
use std::fs::{self, File};
use std::io::{self, Write};
use std::path::{Path, PathBuf};
use std::process::{Command, Stdio};
use std::time::{Duration, Instant};

const SEED: u64 = 1;
const ROUNDS: usize = 20_000;

struct Job {
    name: String,
    program: &'static str,
    files: Vec<PathBuf>,
    repetitions: usize,
}

/// Writes the input files to `dir`, and takes the times of the programs in `bin`
/// and of this one by turns. The table is in Markdown.
pub fn time(bin: &Path, dir: &Path, out: &mut impl Write) -> io::Result<()> {
    let peer = std::env::current_exe()?;
    fs::create_dir_all(dir)?;
    let jobs = jobs(dir)?;
    writeln!(
        out,
        "| job | runs | ours, best | ours, median | peer, best | peer, median | best / best | median / median |"
    )?;
    writeln!(out, "|---|---|---|---|---|---|---|---|")?;
    for job in &jobs {
        let mut ours = Vec::new();
        let mut peers = Vec::new();
        for _ in 0..job.repetitions {
            ours.push(took(&mut our_command(bin, job))?);
            peers.push(took(&mut peer_command(&peer, job))?);
        }
        ours.sort();
        peers.sort();
        tell(out, job, &ours, &peers)?;
    }
    writeln!(out)?;
    writeln!(out, "| job | ours, most memory | peer, most memory |")?;
    writeln!(out, "|---|---|---|")?;
    for job in jobs.iter().filter(|job| job.program == "run") {
        let ours = memory(&our_command(bin, job))?;
        let peers = memory(&peer_command(&peer, job))?;
        writeln!(out, "| {} | {ours} KiB | {peers} KiB |", job.name)?;
    }
    fs::remove_dir_all(dir)
}

fn jobs(dir: &Path) -> io::Result<Vec<Job>> {
    let mut jobs = Vec::new();
    let mut add = |name: String, program, repetitions, files: &[(&str, &[u8])]| {
        let mut names = Vec::new();
        for (end, bytes) in files {
            let file = dir.join(format!("{}.{end}", jobs.len()));
            fs::write(&file, bytes)?;
            names.push(file);
        }
        jobs.push(Job {
            name,
            program,
            files: names,
            repetitions,
        });
        io::Result::Ok(())
    };
    let lays = [
        ("`lay`, 8 by 8 grid", bench::grid_cables(2)),
        (
            "`lay`, 64 switches, 128 random cables",
            bench::random_cables(2, SEED),
        ),
        ("`lay`, star of 64", bench::star_cables(2)),
    ];
    for (name, cables) in &lays {
        add(name.to_string(), "lay", 51, &[("cables", cables)])?;
    }
    for m in [2, 32] {
        let name = format!("`run`, {ROUNDS} rounds, full doors, 8 by 8 grid, m = {m}");
        let cables = bench::grid_cables(m);
        let script = bench::saturated_script(m, ROUNDS, SEED);
        let files: [(&str, &[u8]); 2] = [("cables", &cables), ("script", &script)];
        add(name, "run", if m == 2 { 7 } else { 3 }, &files)?;
    }
    let tables = [
        ("no ring", bench::ringless_table(SEED)),
        ("a ring of 256", bench::long_ring_table(SEED)),
    ];
    for (what, table) in &tables {
        let name = format!("`rings`, 320 channels, 64 places, {what}");
        add(name, "rings", 51, &[("table", table)])?;
    }
    let [cables, script, table] = bench::smallest();
    add(
        "`lay`, start-up".to_string(),
        "lay",
        201,
        &[("cables", &cables)],
    )?;
    let both: [(&str, &[u8]); 2] = [("cables", &cables), ("script", &script)];
    add("`run`, start-up".to_string(), "run", 201, &both)?;
    add(
        "`rings`, start-up".to_string(),
        "rings",
        201,
        &[("table", &table)],
    )?;
    Ok(jobs)
}

fn our_command(bin: &Path, job: &Job) -> Command {
    let mut command = Command::new(bin.join(job.program));
    command.args(&job.files);
    command
}

fn peer_command(peer: &Path, job: &Job) -> Command {
    let mut command = Command::new(peer);
    command.arg(job.program).args(&job.files);
    command
}

/// From before the process is made to after its end.
fn took(command: &mut Command) -> io::Result<Duration> {
    let output = File::create("/dev/null")?;
    command.stdin(Stdio::null()).stdout(output);
    let start = Instant::now();
    let status = command.status()?;
    let time = start.elapsed();
    // A ring is told by status 1.
    if !matches!(status.code(), Some(0 | 1)) {
        return Err(io::Error::other(format!("{command:?}: {status}")));
    }
    Ok(time)
}

fn tell(out: &mut impl Write, job: &Job, ours: &[Duration], peers: &[Duration]) -> io::Result<()> {
    let (best, peer_best) = (ours[0], peers[0]);
    let (middle, peer_middle) = (ours[ours.len() / 2], peers[peers.len() / 2]);
    writeln!(
        out,
        "| {} | {} | {} | {} | {} | {} | {:.2} | {:.2} |",
        job.name,
        ours.len(),
        milliseconds(best),
        milliseconds(middle),
        milliseconds(peer_best),
        milliseconds(peer_middle),
        best.as_secs_f64() / peer_best.as_secs_f64(),
        middle.as_secs_f64() / peer_middle.as_secs_f64(),
    )?;
    out.flush()
}

fn milliseconds(time: Duration) -> String {
    format!("{:.2} ms", time.as_secs_f64() * 1000.0)
}

/// The most memory of a run in KiB, as /usr/bin/time tells it.
fn memory(command: &Command) -> io::Result<String> {
    let output = Command::new("/usr/bin/time")
        .args(["-f", "%M"])
        .arg(command.get_program())
        .args(command.get_args())
        .stdin(Stdio::null())
        .stdout(Stdio::null())
        .output()?;
    let told = String::from_utf8_lossy(&output.stderr);
    Ok(told.lines().last().unwrap_or("?").to_string())
}

/// A folder for the input files.
pub fn fresh_dir() -> PathBuf {
    std::env::temp_dir().join(format!("peer-bench-{}", std::process::id()))
}
