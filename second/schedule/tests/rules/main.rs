//! The rules of the calls, the journal and the programs, by the table of refusal numbers.

mod held;
mod journal;
mod known_answers;
mod limits;
mod lower_refusals;
mod programs;
mod session_refusals;
mod states;
