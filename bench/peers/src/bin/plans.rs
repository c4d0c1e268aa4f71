//! Answers a document on standard input, as the project's program of that name does.

use clap::{value_parser, Arg, ArgAction, Command};
use peers::document::{self, Input, BYTES};
use peers::{report, script, serve};
use std::io::{self, Read, Write};
use std::process::ExitCode;

struct Options {
    workers: u32,
    batches: bool,
}

/// What the command line asks for.
fn options() -> Options {
    let workers = Arg::new("workers")
        .long("workers")
        .value_name("N")
        .value_parser(value_parser!(u32).range(1..=16))
        .default_value("3")
        .help("How many workers fetch for a plan file, 1 to 16");
    let batches = Arg::new("batches")
        .long("batches")
        .action(ArgAction::SetTrue)
        .help("Prints the rounds and batches too, of a plan file with exactly one plan");
    let matches = Command::new("plans")
        .about("Answers a document on standard input")
        .arg(workers)
        .arg(batches)
        .get_matches();
    Options { workers: *matches.get_one::<u32>("workers").expect("a default"), batches: matches.get_flag("batches") }
}

/// The line of why there is no output, and the status.
type Failure = (String, u8);

fn failed(name: &str) -> Failure {
    (format!("failed: {name}"), 3)
}

fn run(options: Options) -> Result<(), Failure> {
    let mut bytes = Vec::new();
    io::stdin().take(BYTES as u64 + 1).read_to_end(&mut bytes).map_err(|_| failed("read"))?;
    let input = document::read(&bytes).map_err(|refusal| (format!("refused: {refusal}"), 1))?;
    let mut out = Vec::new();
    let written = match input {
        Input::Script(script) => script::run(&mut out, script),
        Input::Plans(file) => {
            let report = serve::serve(&file.tables, file.limits, options.workers, file.plans);
            report::write(&mut out, &report.map_err(|fault| failed(&format!("{fault:?}")))?, options.batches)
        }
    };
    written.expect("a text takes what is written");
    let mut stdout = io::stdout().lock();
    stdout.write_all(&out).and_then(|()| stdout.flush()).map_err(|_| failed("write"))
}

fn main() -> ExitCode {
    match run(options()) {
        Ok(()) => ExitCode::SUCCESS,
        Err((line, status)) => {
            eprintln!("{line}");
            ExitCode::from(status)
        }
    }
}
