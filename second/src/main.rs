//! An independent second program: a plain model of the board, written from the papers, that is compared with
//! the library through its C face. See the README beside this folder.

mod block;
mod board;
mod calls;
mod compare;
mod damage;
mod delivery;
mod domain;
mod draw;
mod face;
mod file;
mod journey;
mod lent;
mod mixed;
mod movement;
mod options;
mod progress;
mod random;
mod reader;
mod record;
mod replay;
mod rules;
mod run;
mod shift;
mod shrink;
mod sound;
mod source;
mod sweep;
mod table;
mod taste;
mod wired;

use std::io::{self, Read, Write};
use std::process::ExitCode;

use compare::Counts;
use options::{Options, USAGE};
use run::{again, Found, Run};

fn summary(run: &Run, options: &Options, differences: u32) -> String {
    let counts = &run.counts;
    let given = counts.refusals.iter().enumerate().map(|(number, count)| format!("{number}:{count}"));
    let refusals = given.collect::<Vec<String>>().join(" ");
    let Counts { calls, reads, messages, moves, .. } = counts;
    format!(
        "second: {calls} calls compared, {differences} differences (seed {}; {moves} whole moves; \
         refusals {refusals}; {messages} messages; {reads} register reads besides)",
        options.seed
    )
}

/// The shortest sequence that can be found, a line an item, and what differed at its end.
fn show(found: &Found, options: &Options) {
    println!("first difference at call {}", found.call);
    let journey = found.journey.as_ref();
    let mut items = found.items.clone();
    if options.shrink {
        items = shrink::shrink(items, &|items| again(items, journey).is_some());
    }
    let (difference, used) = again(&items, journey).unwrap_or((found.difference.clone(), items.len()));
    for item in &items[..used] {
        println!("{}", item.line());
    }
    if let Some(journey) = journey {
        println!("a whole move from {:?} to {:?} broke its promise:", journey.old, journey.new);
    }
    for line in difference.lines {
        println!("{line}");
    }
}

fn compare(options: &Options) -> ExitCode {
    let mut run = Run::new(options);
    match run.go() {
        Ok(()) => {
            if !options.quiet {
                let unseen: Vec<&str> =
                    rules::names().filter(|name| !run.counts.broken.contains_key(name)).collect();
                let seen = run.counts.broken.len();
                eprintln!("second: {seen} state rules were broken and refused; not broken: {unseen:?}");
            }
            println!("{}", summary(&run, options, 0));
            ExitCode::SUCCESS
        }
        Err(found) => {
            show(&found, options);
            println!("{}", summary(&run, options, 1));
            ExitCode::from(1)
        }
    }
}

/// Writes both files of recorded cases.
fn record(calls: u64, options: &Options) -> Result<(), String> {
    let recorder = record::record(calls, options.seed);
    let files = [(&options.cases, &recorder.cases), (&options.answers, &recorder.answers)];
    for (name, text) in files {
        let name = name.as_ref().ok_or("no file is named")?;
        std::fs::write(name, text).map_err(|fault| format!("{name}: {fault}"))?;
    }
    println!("second: {} calls recorded, {} bytes of cases", recorder.calls, recorder.cases.len());
    Ok(())
}

/// Writes a record on standard output.
fn shift(lines: u64, options: &Options) -> Result<(), String> {
    let record = shift::record(lines, options.seed, options.damaged.unwrap_or(0));
    let mut to = io::stdout().lock();
    to.write_all(&record).and_then(|()| to.flush()).map_err(|fault| format!("standard output: {fault}"))
}

/// Writes the answers to a record on standard output.
fn replay(name: &str) -> Result<(), String> {
    let mut record = Vec::new();
    let read = match name {
        "-" => io::stdin().read_to_end(&mut record),
        _ => std::fs::File::open(name).and_then(|mut file| file.read_to_end(&mut record)),
    };
    read.map_err(|fault| format!("{name}: {fault}"))?;
    let to = io::BufWriter::new(io::stdout().lock());
    replay::run(&record, to).map_err(|fault| format!("standard output: {fault}"))
}

/// What is asked for, if it is not the comparison.
fn asked(options: &Options) -> Option<Result<(), String>> {
    match (options.record, options.shift, &options.replay) {
        (Some(calls), ..) => Some(record(calls, options)),
        (_, Some(lines), _) => Some(shift(lines, options)),
        (.., Some(name)) => Some(replay(name)),
        _ => None,
    }
}

fn main() -> ExitCode {
    let options = match Options::read(std::env::args().skip(1)) {
        Ok(options) => options,
        Err(fault) => {
            eprintln!("second: {fault}\n{USAGE}");
            return ExitCode::from(2);
        }
    };
    if options.help {
        println!("{USAGE}");
        return ExitCode::SUCCESS;
    }
    match asked(&options) {
        None => compare(&options),
        Some(Ok(())) => ExitCode::SUCCESS,
        Some(Err(fault)) => {
            eprintln!("second: {fault}");
            ExitCode::from(2)
        }
    }
}
