//! The bench: runs both programs on a list and holds every line of one to the other's.

use crate::coverage::Coverage;
use crate::list::{List, Program};
use crate::report::{self, Stop};
use crate::run;
use std::path::PathBuf;
use std::sync::Arc;
use std::time::Instant;

/// The four programs.
pub struct Programs {
    pub product_calls: PathBuf,
    pub product_replay: PathBuf,
    pub second_calls: PathBuf,
    pub second_replay: PathBuf,
}

pub struct Bench {
    programs: Programs,
    /// The seed of the pass, from which lists take their random bytes.
    pub seed: u64,
    /// When to stop; none in the first pass.
    pub until: Option<Instant>,
    pub lists: u64,
    pub lines: u64,
    pub coverage: Coverage,
}

impl Bench {
    pub fn new(programs: Programs, seed: u64) -> Bench {
        Bench {
            programs,
            seed,
            until: None,
            lists: 0,
            lines: 0,
            coverage: Coverage::new(),
        }
    }

    /// Runs both programs at the same time and compares; gives the lines on which they agree.
    pub fn compare(&mut self, list: &List) -> Result<Vec<String>, Stop> {
        if self.until.is_some_and(|until| Instant::now() >= until) {
            return Err(Stop::TimeOver);
        }
        let (product, second) = match list.program {
            Program::Calls => (&self.programs.product_calls, &self.programs.second_calls),
            Program::Replay => (&self.programs.product_replay, &self.programs.second_replay),
        };
        let input = Arc::new(list.bytes.clone());
        let (product, second) = (run::start(product, &input), run::start(second, &input));
        let (product, second) = (run::finish(product), run::finish(second));
        if let Some(stop) = report::difference(list, self.seed, &product, &second) {
            return Err(stop);
        }
        let text = String::from_utf8_lossy(&product.output);
        let lines: Vec<String> = text.lines().map(String::from).collect();
        self.lists += 1;
        self.lines += lines.len() as u64;
        self.judge(list, &lines)?;
        Ok(lines)
    }

    /// Holds agreed lines to the table of reachable pairs and to the list's sure answers.
    fn judge(&mut self, list: &List, lines: &[String]) -> Result<(), Stop> {
        for (at, line) in lines.iter().enumerate() {
            if !self.coverage.count(list.program, line) {
                let why = "an answer that document 01 does not give";
                return Err(self.agreed(list, lines, at, why));
            }
        }
        for ordinal in &list.yes {
            let at = ordinal - 1;
            if !lines.get(at).is_some_and(|line| line.ends_with(" yes")) {
                let why = "not `yes`, though the value is Finished's own";
                return Err(self.agreed(list, lines, at, why));
            }
        }
        Ok(())
    }

    /// A failure at a line on which both programs agree.
    fn agreed(&self, list: &List, lines: &[String], at: usize, why: &str) -> Stop {
        let line = lines.get(at).map_or("", String::as_str);
        let front: String = line.chars().take(100).collect();
        let details = [format!("both print `{front}`: {why}")];
        let line = (at, line.as_bytes());
        report::failure("wrong answer", list, self.seed, line, &details)
    }
}
