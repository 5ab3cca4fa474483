//! Runs the project's jobs beside the same work in plain Rust, in turn, and prints one table of both.
//!
//!     harness [--list] [--pairs N] [--markdown FILE] [WORD..]
//!
//! With --markdown it writes the tables into a file, each under its heading of `bench/about.md`, after the text that is there.
//!
//! A job is run where its name has each of the words in it; without words all are. Before it is timed, both sides' answers on the input are compared,
//! and a job whose answers differ has failed.

mod inputs;
mod jobs;
mod ours;
mod plain;

use jobs::{Entry, Job};
#[cfg(sqlite)]
use std::io::Write;
use std::process::{Command, ExitCode};
use std::time::{Duration, Instant};

/// How long a side's turn takes at least, where a round doesn't take longer.
const TURN: Duration = Duration::from_millis(20);

struct Times {
    ours: Vec<f64>,
    plain: Vec<f64>,
}

struct Row {
    name: String,
    octets: usize,
    aim: f64,
    /// Seconds a round: the median and the best of all turns.
    ours: (f64, f64),
    plain: (f64, f64),
    /// The most memory beside a message, as a multiple of its size.
    memory: Option<(f64, f64)>,
}

impl Row {
    fn ratio(&self) -> f64 {
        self.ours.0 / self.plain.0
    }
}

fn seconds(side: &jobs::Side, rounds: u32) -> f64 {
    let start = Instant::now();
    std::hint::black_box(side(rounds));
    start.elapsed().as_secs_f64()
}

// How many rounds fill a turn.
fn rounds_of(side: &jobs::Side) -> u32 {
    let mut rounds = 1;
    loop {
        let time = seconds(side, rounds);
        if time * 2.0 > TURN.as_secs_f64() || rounds >= 1 << 24 {
            return ((f64::from(rounds) * TURN.as_secs_f64() / time.max(1e-9)) as u32).clamp(1, 1 << 25);
        }
        rounds *= 4;
    }
}

fn timed(job: &Job, pairs: usize) -> Times {
    let (own, other) = (rounds_of(&job.ours), rounds_of(&job.plain));
    let mut times = Times { ours: Vec::new(), plain: Vec::new() };
    for _ in 0..pairs {
        times.ours.push(seconds(&job.ours, own) / f64::from(own));
        times.plain.push(seconds(&job.plain, other) / f64::from(other));
    }
    times
}

fn median_and_best(mut times: Vec<f64>) -> (f64, f64) {
    times.sort_by(f64::total_cmp);
    (times[times.len() / 2], times[0])
}

fn measured(entry: &Entry, pairs: usize) -> Result<Row, String> {
    let job = (entry.job)();
    let (own, other) = ((job.ours)(0), (job.plain)(0));
    if own != other {
        return Err(format!("{}: the answers differ: {own} and, in plain Rust, {other}", job.name));
    }
    if own == u64::MAX {
        return Err(format!("{}: refused", job.name));
    }
    let times = timed(&job, pairs);
    let memory = (job.message > 0).then(|| (peak(&job.name, "ours"), peak(&job.name, "plain")));
    Ok(Row {
        octets: job.octets,
        aim: job.aim,
        ours: median_and_best(times.ours),
        plain: median_and_best(times.plain),
        memory: memory.and_then(|(own, other)| Some((own? / job.message as f64, other? / job.message as f64))),
        name: job.name,
    })
}

// The most memory that one round takes beside what was there before, in a process of its own.
fn peak(name: &str, side: &str) -> Option<f64> {
    let program = std::env::current_exe().ok()?;
    let answer = Command::new(program).args(["--peak", side, name]).output().ok()?;
    String::from_utf8(answer.stdout).ok()?.trim().parse().ok()
}

fn status(word: &str) -> Option<f64> {
    let text = std::fs::read_to_string("/proc/self/status").ok()?;
    let line = text.lines().find_map(|line| line.strip_prefix(word))?;
    line.trim().strip_suffix(" kB")?.parse::<f64>().ok().map(|number| number * 1024.0)
}

fn tell_peak(entries: &[Entry], side: &str, name: &str) -> Option<()> {
    let job = (entries.iter().find(|entry| entry.name == name)?.job)();
    // the most so far is that of making the input
    std::fs::write("/proc/self/clear_refs", "5").ok()?;
    let before = status("VmRSS:")?;
    if side == "ours" { (job.ours)(1) } else { (job.plain)(1) };
    println!("{}", (status("VmHWM:")? - before).max(0.0));
    Some(())
}

/// The code of a script, made by the program that is measured.
pub fn compiled_by_program(script: &[u8], name: &std::path::Path) -> Vec<u8> {
    let depot = std::env::var_os("DEPOT").expect("DEPOT names the program");
    let (source, code) = (name.with_extension("sieve"), name.with_extension("svbc"));
    std::fs::write(&source, script).expect("a script for the jobs");
    let done = Command::new(depot).arg("compile").args([&source, &code]).output().expect("the program runs");
    assert!(done.status.success(), "{}", String::from_utf8_lossy(&done.stderr));
    let octets = std::fs::read(&code).expect("the code");
    let _ = (std::fs::remove_file(source), std::fs::remove_file(code));
    octets
}

// Does what the program does with the same words on a depot in a file.
#[cfg(sqlite)]
fn on_file(mut words: impl Iterator<Item = String>) -> ExitCode {
    let (Some(command), Some(file)) = (words.next(), words.next()) else { return ExitCode::FAILURE };
    let mail = words.nth(1).filter(|_| command == "deliver").and_then(|name| std::fs::read(name).ok()).unwrap_or_default();
    let file = std::ffi::CString::new(file).expect("a name");
    match std::io::stdout().write_all(&plain::store::on_file(&command, &file, &mail)) {
        Ok(()) => ExitCode::SUCCESS,
        Err(_) => ExitCode::FAILURE,
    }
}

fn time(seconds: f64) -> String {
    match seconds {
        s if s >= 1.0 => format!("{s:.2} s"),
        s if s >= 1e-3 => format!("{:.2} ms", s * 1e3),
        s if s >= 1e-6 => format!("{:.2} us", s * 1e6),
        s => format!("{:.0} ns", s * 1e9),
    }
}

fn rate(octets: usize, seconds: f64) -> String {
    if octets < 1024 { String::new() } else { format!("{:.0}", octets as f64 / seconds / 1e6) }
}

const HEAD: &str = "| job | ours | plain | ours, MB/s | plain, MB/s | ratio | of the best | aim | memory | plain, memory |
|---|---|---|---|---|---|---|---|---|---|
";

fn shown(row: &Row) -> String {
    let (memory, beside) = match row.memory {
        Some((own, other)) => (format!("{own:.1}"), format!("{other:.1}")),
        None => Default::default(),
    };
    let met = if row.ratio() <= row.aim { "" } else { ", missed" };
    format!(
        "| {} | {} | {} | {} | {} | {:.2} | {:.2} | {}{met} | {memory} | {beside} |\n",
        row.name,
        time(row.ours.0),
        time(row.plain.0),
        rate(row.octets, row.ours.0),
        rate(row.octets, row.plain.0),
        row.ratio(),
        row.ours.1 / row.plain.1,
        row.aim,
    )
}

/// What the figures of each group mean; a heading `## GROUP` for each.
const ABOUT: &str = include_str!("../about.md");

fn first_line(program: &str, words: &[&str]) -> String {
    let output = Command::new(program).args(words).output().ok();
    let text = output.map(|output| String::from_utf8_lossy(&output.stdout).into_owned()).unwrap_or_default();
    text.lines().next().unwrap_or_default().to_string()
}

// The version of the program that DEPOT names, with which its help ends.
fn version() -> String {
    let output = std::env::var_os("DEPOT").and_then(|depot| Command::new(depot).arg("help").output().ok());
    let help = output.map(|output| String::from_utf8_lossy(&output.stderr).into_owned()).unwrap_or_default();
    let ending = help.trim_end().lines().last().unwrap_or_default();
    ending.split(',').next().unwrap_or_default().trim_start_matches("depot").trim().to_string()
}

// What it ran on, and with what.
fn machine() -> String {
    let told = std::fs::read_to_string("/proc/cpuinfo").unwrap_or_default();
    let model = told.lines().find_map(|line| line.strip_prefix("model name")).unwrap_or("").trim_start_matches(['\t', ' ', ':']);
    let load = std::fs::read_to_string("/proc/loadavg").unwrap_or_default();
    let load = load.split(' ').nth(1).unwrap_or("");
    let processors = std::thread::available_parallelism().map_or(1, usize::from);
    format!(
        "{}, version {}: {processors} processors, {model}; a load of {load} over five minutes when it ended; {}; {}.",
        first_line("date", &["+%Y-%m-%d"]),
        version(),
        first_line("rustc", &["--version"]),
        first_line("rt", &["version"]),
    )
}

// The table of a script beside this harness, which it is told where to find; or why there is none.
fn beside_another() -> String {
    let (Some(script), Some(depot)) = (std::env::var_os("BESIDE"), std::env::var_os("DEPOT")) else {
        return "It wasn't run with these figures.\n".to_string();
    };
    match Command::new(script).arg(depot).output() {
        Ok(output) if output.status.success() => String::from_utf8_lossy(&output.stdout).into_owned(),
        Ok(output) => format!("It wasn't run with these figures: {}", String::from_utf8_lossy(&output.stderr)),
        Err(fault) => format!("It wasn't run with these figures: {fault}\n"),
    }
}

// The tables, each after what its group's figures mean.
fn document(rows: &[(&str, String)]) -> String {
    let mut sections = ABOUT.split("\n## ");
    let mut text = sections.next().unwrap_or_default().replace("MACHINE", &machine());
    for section in sections {
        let group = section.lines().next().unwrap_or_default();
        let table: String = rows.iter().filter(|row| row.0 == group).map(|row| row.1.as_str()).collect();
        text.push_str(&format!("\n## {}\n", section.trim_end()));
        if !table.is_empty() {
            text.push_str(&format!("\n{HEAD}{table}"));
        } else if group == "Compared with another filter" {
            text.push_str(&format!("\n{}", beside_another()));
        }
    }
    text
}

struct Options {
    pairs: usize,
    markdown: Option<String>,
    words: Vec<String>,
}

fn run(entries: &[Entry], options: &Options) -> ExitCode {
    let wanted: Vec<&Entry> = entries.iter().filter(|entry| options.words.iter().all(|word| entry.name.contains(word.as_str()))).collect();
    if wanted.is_empty() {
        eprintln!("no job has these words in its name; --list prints all");
        return ExitCode::FAILURE;
    }
    let (mut rows, mut failed) = (Vec::new(), 0);
    print!("{HEAD}");
    for entry in wanted {
        match measured(entry, options.pairs) {
            Ok(row) => {
                print!("{}", shown(&row));
                rows.push((entry.group, shown(&row)));
            }
            Err(why) => {
                eprintln!("FAILED {why}");
                failed += 1;
            }
        }
    }
    if let Some(file) = &options.markdown
        && let Err(fault) = std::fs::write(file, document(&rows))
    {
        eprintln!("{file}: {fault}");
        failed += 1;
    }
    if failed == 0 { ExitCode::SUCCESS } else { ExitCode::FAILURE }
}

fn main() -> ExitCode {
    let entries = jobs::all();
    let mut options = Options { pairs: 7, markdown: None, words: Vec::new() };
    let mut words = std::env::args().skip(1);
    while let Some(word) = words.next() {
        match word.as_str() {
            "--list" => {
                for entry in &entries {
                    println!("{}", entry.name);
                }
                return ExitCode::SUCCESS;
            }
            "--peak" => {
                let (side, name) = (words.next().unwrap_or_default(), words.next().unwrap_or_default());
                return if tell_peak(&entries, &side, &name).is_some() { ExitCode::SUCCESS } else { ExitCode::FAILURE };
            }
            #[cfg(sqlite)]
            "--depot" => return on_file(words),
            "--pairs" => options.pairs = words.next().and_then(|number| number.parse().ok()).unwrap_or(7).max(7),
            "--markdown" => options.markdown = words.next(),
            _ => options.words.push(word),
        }
    }
    run(&entries, &options)
}
