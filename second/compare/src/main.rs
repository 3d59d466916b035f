//! Holds the programs `calls` and `replay` to the second pair: the same standard input to both,
//! every line compared, and every answer that document 01 allows seen at least once.

mod args;
mod bench;
mod call;
mod coverage;
mod list;
mod lists;
mod plan;
mod reads;
mod report;
mod rng;
mod run;
mod suite;
mod variants;
mod words;

use args::{Args, Asked};
use bench::{Bench, Programs};
use report::Stop;
use std::path::{Path, PathBuf};
use std::process::ExitCode;
use std::time::Instant;

fn main() -> ExitCode {
    let asked = args::read(std::env::args().skip(1));
    let args = match asked {
        Ok(Asked::Help) => {
            println!("{}", args::HELP);
            return ExitCode::SUCCESS;
        }
        Ok(Asked::Pass(args)) => args,
        Err(why) => return bad_arguments(&why),
    };
    let programs = match programs(&args) {
        Ok(programs) => programs,
        Err(why) => return bad_arguments(&why),
    };
    let mut bench = Bench::new(programs, args.seed);
    match whole(&mut bench, &args) {
        Ok(()) => ExitCode::SUCCESS,
        Err(text) => {
            println!("{text}");
            ExitCode::FAILURE
        }
    }
}

fn bad_arguments(why: &str) -> ExitCode {
    eprintln!("compare: {why}; --help says more");
    ExitCode::from(2)
}

/// The four programs; the error names one that is not there.
fn programs(args: &Args) -> Result<Programs, String> {
    let find = |folder: &Path, name: &str| -> Result<PathBuf, String> {
        let path = folder.join(name);
        if path.is_file() {
            // A bare name would be looked up in PATH.
            path.canonicalize().map_err(|error| error.to_string())
        } else {
            Err(format!("there is no program {}", path.display()))
        }
    };
    Ok(Programs {
        product_calls: find(&args.product, "calls")?,
        product_replay: find(&args.product, "replay")?,
        second_calls: find(&args.second, "second-calls")?,
        second_replay: find(&args.second, "second-replay")?,
    })
}

/// One pass over all lists, then the passes of `--soak`; the error is the report.
fn whole(bench: &mut Bench, args: &Args) -> Result<(), String> {
    let start = Instant::now();
    pass(bench, args, &lists::PARTS)?;
    if let Some(soak) = args.soak {
        bench.until = Some(start + soak);
        while bench.until.is_some_and(|until| Instant::now() < until) {
            bench.seed = bench.seed.wrapping_add(1);
            println!("seed {}", bench.seed);
            pass(bench, args, lists::seeded())?;
        }
    }
    print!("{}", bench.coverage.table());
    let missing = bench.coverage.missing();
    if !missing.is_empty() {
        return Err(format!("compare: never seen: {}", missing.join(", ")));
    }
    let (lists, lines) = (bench.lists, bench.lines);
    println!("compare: {lists} lists, {lines} lines, no difference");
    Ok(())
}

/// One pass over `parts`; the time's end is no error.
fn pass(bench: &mut Bench, args: &Args, parts: &[lists::Part]) -> Result<(), String> {
    for part in parts {
        let (start, lists, lines) = (Instant::now(), bench.lists, bench.lines);
        match (part.run)(bench, args.lists) {
            Ok(()) => {}
            Err(Stop::TimeOver) => return Ok(()),
            Err(Stop::Failure(text)) => return Err(text),
        }
        println!(
            "{:10} {:6} lists {:8} lines {:6.1} s",
            part.name,
            bench.lists - lists,
            bench.lines - lines,
            start.elapsed().as_secs_f64()
        );
    }
    Ok(())
}
