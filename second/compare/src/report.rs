//! The report of a difference.

use crate::list::{self, List};
use crate::run::{Ending, Run};
use crate::words;
use std::fs;

/// What stops a pass over the lists.
pub enum Stop {
    /// The programs differ, or a line is not one that document 01 knows.
    Failure(String),
    /// The time of `--soak` is over.
    TimeOver,
}

/// A failure in `list` at the line `at`, counted from 0, which reads `line`; `details` say what is
/// wrong with it.
pub fn failure(
    what: &str,
    list: &List,
    seed: u64,
    (at, line): (usize, &[u8]),
    details: &[String],
) -> Stop {
    let calls = list::records(&list.bytes);
    let (ordinal, name) = (at + 1, &list.name);
    // Lines of records, and `bad` of a damaged one, stand at the record's ordinal.
    let answers = line.first().is_some_and(u8::is_ascii_digit) || line.starts_with(b"bad");
    let (place, record) = match calls.get(at) {
        Some(call) if answers => (format!("record {ordinal}"), words::record(call)),
        None if answers => (format!("record {ordinal}"), "cut short".into()),
        _ => (format!("line {ordinal}"), "none, a line behind them".into()),
    };
    let mut text = format!("compare: {what} in list `{name}`, seed {seed}, {place}\n");
    text.push_str(&format!("record: {record}\n"));
    for detail in details {
        text.push_str(detail);
        text.push('\n');
    }
    text.push_str(&format!("input: {}", keep(list)));
    Stop::Failure(text)
}

/// The first difference of two runs, if there is one.
pub fn difference(list: &List, seed: u64, product: &Run, second: &Run) -> Option<Stop> {
    let good = |run: &Run| run.ending == Ending::Good && !run.output.is_empty();
    if product.output == second.output && good(product) && good(second) {
        return None;
    }
    let (at, mut details) = first_line(&product.output, &second.output);
    for (name, run) in [("product", product), ("second", second)] {
        if run.ending != Ending::Good {
            details.push(format!("the {name} program {}", run.ending.words()));
        } else if run.output.is_empty() {
            details.push(format!("the {name} program prints nothing"));
        }
    }
    Some(failure("difference", list, seed, at, &details))
}

/// The first line in which two outputs differ, its ordinal from 0, and what it is in each.
fn first_line<'a>(product: &'a [u8], second: &'a [u8]) -> ((usize, &'a [u8]), Vec<String>) {
    let mut left = product.split_inclusive(|&byte| byte == b'\n');
    let mut right = second.split_inclusive(|&byte| byte == b'\n');
    let mut at = 0;
    loop {
        match (left.next(), right.next()) {
            (None, None) => return ((at, b""), vec![format!("the {at} lines are the same")]),
            (a, b) if a == b => at += 1,
            (a, b) => return ((at, a.or(b).unwrap_or_default()), columns(a, b)),
        }
    }
}

/// Two lines around the first column that differs.
fn columns(product: Option<&[u8]>, second: Option<&[u8]>) -> Vec<String> {
    let (a, b) = (product.unwrap_or_default(), second.unwrap_or_default());
    let same = a.iter().zip(b).take_while(|(a, b)| a == b).count();
    vec![
        format!("product: {}", window(product, same)),
        format!("second:  {}", window(second, same)),
        format!("first differing column: {}", same + 1),
    ]
}

/// Columns shown before and behind the first that differs.
const BEFORE: usize = 60;
const BEHIND: usize = 40;

fn window(line: Option<&[u8]>, column: usize) -> String {
    let Some(line) = line else {
        return "(no line)".into();
    };
    let start = column.saturating_sub(BEFORE);
    let end = line.len().min(column + BEHIND);
    let front = if start > 0 { "..." } else { "" };
    let back = if end < line.len() { "..." } else { "" };
    let text = String::from_utf8_lossy(&line[start.min(end)..end]);
    format!("{front}{}{back}", text.escape_debug())
}

/// Writes the input to a file of the system's temporary folder and gives its path.
fn keep(list: &List) -> String {
    let plain = |c: char| if c.is_ascii_alphanumeric() { c } else { '-' };
    let name: String = list.name.chars().map(plain).collect();
    let file = format!("compare-{}-{name}.in", std::process::id());
    let path = std::env::temp_dir().join(file);
    match fs::write(&path, &list.bytes) {
        Ok(()) => path.display().to_string(),
        Err(error) => format!("not written to {}: {error}", path.display()),
    }
}

#[cfg(test)]
mod tests {
    use super::{first_line, window};

    #[test]
    fn finds_the_first_line_and_column() {
        let ((at, line), details) = first_line(b"1 8 0 0\nend 1\n", b"1 8 0 0\nend 2\n");
        assert_eq!((at, line), (1, &b"end 1\n"[..]));
        assert_eq!(details[2], "first differing column: 5");
    }

    #[test]
    fn sees_a_missing_line_and_a_missing_line_feed() {
        let ((at, _), details) = first_line(b"1 8 0 0\nend 1\n", b"1 8 0 0\n");
        assert_eq!((at, details[1].as_str()), (1, "second:  (no line)"));
        let ((at, _), details) = first_line(b"end 0\n", b"end 0");
        assert_eq!((at, details[2].as_str()), (0, "first differing column: 6"));
    }

    #[test]
    fn cuts_long_lines_around_the_column() {
        let line = [b'a'; 500];
        let shown = window(Some(&line), 250);
        assert_eq!(shown.len(), 60 + 40 + 6);
        assert!(shown.starts_with("...") && shown.ends_with("..."));
    }
}
