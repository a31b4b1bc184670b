//! How fast a running server answers, and how late. `--help` says what it takes.

mod histogram;
mod load;
mod newest;
mod options;
mod report;
mod wire;

use options::{Options, HELP};
use std::io::{self, Write};
use std::process::ExitCode;

/// Nothing, or not all, was measured, or a request was refused.
const FAULT: u8 = 1;

/// The arguments are wrong.
const USAGE: u8 = 2;

fn main() -> ExitCode {
    match Options::of(std::env::args().skip(1)) {
        Ok(None) => ended(print(&format!("{HELP}\n"))),
        Ok(Some(options)) => run(&options),
        Err(wrong) => {
            eprintln!("ramp-bench: {wrong}");
            ExitCode::from(USAGE)
        }
    }
}

fn run(options: &Options) -> ExitCode {
    let mut connections = match load::connect(options) {
        Ok(connections) => connections,
        Err(fault) => {
            eprintln!("ramp-bench: {fault}");
            return ExitCode::from(FAULT);
        }
    };
    let mut is_good = print(report::head(options));
    for mix in &options.mixes {
        if options.waits && io::stdin().read_line(&mut String::new()).is_err() {
            return ExitCode::from(FAULT);
        }
        let figures = load::measure(options, *mix, &mut connections);
        is_good &= print(&report::body(options, &figures)) && !figures.all().is_refused;
        if let Some(fault) = figures.faults.first() {
            eprintln!("ramp-bench: {} of {} connections: {fault}", figures.faults.len(), connections.len());
            return ExitCode::from(FAULT);
        }
    }
    ended(is_good)
}

fn ended(is_good: bool) -> ExitCode {
    if is_good {
        ExitCode::SUCCESS
    } else {
        ExitCode::from(FAULT)
    }
}

/// Whether all of it was written.
fn print(text: &str) -> bool {
    let mut out = io::stdout();
    out.write_all(text.as_bytes()).and_then(|()| out.flush()).is_ok()
}
