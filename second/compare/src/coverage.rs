//! Which answers of which calls were seen, held to the answers that document 01 allows.

use crate::call;
use crate::list::Program;
use crate::words;

/// A call, or a line that is no record's, and each of its answers that some list reaches.
struct Row {
    program: Program,
    kind: u16,
    answers: &'static [&'static str],
}

const fn row(program: Program, kind: u16, answers: &'static [&'static str]) -> Row {
    Row {
        program,
        kind,
        answers,
    }
}

/// Stands for the kind in the row of the last line, and of the line `point`.
const LAST: u16 = 0;
const POINT: u16 = u16::MAX;

use Program::{Calls, Replay};

/// The reachable pairs: "Refusal numbers" of document 01, read per call.
/// Through `replay` 65,536 bytes reach neither 9 nor 12.
const REACHABLE: [Row; 32] = [
    row(Calls, call::BEGIN, &["0", "1", "2", "4"]),
    row(Calls, call::FEED, &["0", "1", "7", "8", "9"]),
    row(Calls, call::EARLY, &["0", "1", "3"]),
    row(Calls, call::HANDSHAKE, &["0", "1", "2", "4", "5", "6"]),
    row(Calls, call::APPLICATION, &["0", "1"]),
    row(Calls, call::COMPLETE, &["0", "1"]),
    row(Calls, call::UPDATE, &["0", "1", "2", "12"]),
    row(Calls, call::CLOSE, &["0"]),
    row(Calls, call::KEYS, &["0", "1", "2", "3", "11"]),
    row(Calls, call::FINISHED, &["0", "1", "2", "11"]),
    row(Calls, call::CHECK, &["0 yes", "0 no", "1 no", "2 no"]),
    row(Calls, call::BINDER, &["0", "1", "3", "7", "8", "11"]),
    row(Calls, call::EXPORT, &["0", "1", "2", "3", "10", "11"]),
    row(Calls, call::HASH, &["0", "2", "9", "11"]),
    row(Calls, call::HMAC, &["0", "2", "4", "9", "11"]),
    row(Calls, call::EXTRACT, &["0", "2", "4", "9", "11"]),
    row(Calls, call::EXPAND, &["0", "2", "4", "10", "11"]),
    row(Calls, call::EXPAND_LABEL, &["0", "2", "4", "10", "11"]),
    row(
        Calls,
        call::DERIVE_SECRET,
        &["0", "2", "4", "9", "10", "11"],
    ),
    row(Calls, call::WRITE, &["0", "10", "11"]),
    row(Calls, call::READ, &["0 record", "0 end", "13 bad"]),
    row(Calls, LAST, &["end", "bad", "long"]),
    row(Calls, POINT, &["0", "1", "2", "3", "4", "5"]),
    row(Replay, call::BEGIN, &["0", "1", "2", "4"]),
    row(Replay, call::FEED, &["0", "1", "7", "8"]),
    row(Replay, call::EARLY, &["0", "1", "3"]),
    row(Replay, call::HANDSHAKE, &["0", "1", "2", "4", "5", "6"]),
    row(Replay, call::APPLICATION, &["0", "1"]),
    row(Replay, call::COMPLETE, &["0", "1"]),
    row(Replay, call::UPDATE, &["0", "1", "2"]),
    row(Replay, call::CLOSE, &["0"]),
    row(Replay, LAST, &["end", "bad", "long"]),
];

/// How often each pair of the table was seen.
pub struct Coverage(Vec<Vec<u64>>);

impl Coverage {
    pub fn new() -> Coverage {
        Coverage(
            REACHABLE
                .iter()
                .map(|row| vec![0; row.answers.len()])
                .collect(),
        )
    }

    /// Counts a line; false if its pair is not in the table.
    pub fn count(&mut self, program: Program, line: &str) -> bool {
        let Some((kind, number, word)) = parts(line) else {
            return line.starts_with("place ");
        };
        let Some(at) =
            (REACHABLE.iter()).position(|row| row.program == program && row.kind == kind)
        else {
            return false;
        };
        let same = |answer: &&str| match answer.split_once(' ') {
            Some(pair) => pair == (number, word),
            None => *answer == number,
        };
        match REACHABLE[at].answers.iter().position(same) {
            Some(answer) => self.0[at][answer] += 1,
            None => return false,
        }
        true
    }

    /// The table with its counts, one row per call.
    pub fn table(&self) -> String {
        let mut text = String::from("coverage: answers seen, as answer:count\n");
        for (row, counts) in REACHABLE.iter().zip(&self.0) {
            text.push_str(&format!("{:21}", title(row)));
            for (answer, count) in row.answers.iter().zip(counts) {
                let answer = answer.replace(' ', "-");
                text.push_str(&format!("  {answer}:{count}"));
            }
            text.push('\n');
        }
        text
    }

    /// The pairs that were never seen.
    pub fn missing(&self) -> Vec<String> {
        let mut pairs = Vec::new();
        for (row, counts) in REACHABLE.iter().zip(&self.0) {
            for (answer, count) in row.answers.iter().zip(counts) {
                if *count == 0 {
                    pairs.push(format!("{} {answer}", title(row)));
                }
            }
        }
        pairs
    }
}

/// A line's kind, its number and, for Check and the journal's reading, its word.
fn parts(line: &str) -> Option<(u16, &str, &str)> {
    let mut words = line.split(' ');
    let first = words.next()?;
    match first {
        "end" | "bad" | "long" => return Some((LAST, first, "")),
        "point" => return Some((POINT, words.next()?, "")),
        _ => {}
    }
    first.parse::<u64>().ok()?;
    let kind = words.next()?.parse().ok()?;
    let number = words.next()?;
    Some((kind, number, words.nth(1).unwrap_or("")))
}

fn title(row: &Row) -> String {
    let program = match row.program {
        Calls => "",
        Replay => "replay ",
    };
    let name = match row.kind {
        LAST => "last line",
        POINT => "point",
        kind => words::name(kind),
    };
    format!("{program}{name}")
}

#[cfg(test)]
mod tests {
    use super::{Coverage, Program};

    #[test]
    fn knows_the_pairs_of_the_paper() {
        let mut coverage = Coverage::new();
        for line in [
            "1 1 0 0",
            "2 103 0 0 yes",
            "3 302 13 0 bad 7",
            "point 5",
            "place 1 00",
        ] {
            assert!(coverage.count(Program::Calls, line), "{line}");
        }
        for line in [
            "1 1 3 0",
            "2 103 1 0 yes",
            "3 302 13 0 end",
            "point 6",
            "1 9 0 0",
            "",
        ] {
            assert!(!coverage.count(Program::Calls, line), "{line}");
        }
        assert!(!coverage.count(Program::Replay, "1 2 9"));
        assert!(coverage.missing().contains(&"Begin 1".to_string()));
    }
}
