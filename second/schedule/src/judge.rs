//! The refusals of the session's calls, each from the book, the call's inputs and the length of the
//! lent output.

use crate::book::{Book, Place, Point, PskKind, Side};
use crate::lower::{label_fits, largest_expansion};
use crate::refusal::{lowest, Answer, Refusal};
use crate::suite::{refuses_all_zero, shared_secret_length, Suite};
use crate::transcript::{Mark, CLIENT_HELLO};

pub const TRANSCRIPT_LIMIT: usize = 1_048_576;
pub const UPDATE_LIMIT: u32 = 65_535;
pub const EXTERNAL_PSK_LIMIT: usize = 128;
pub const EXPORT_CONTEXT_LIMIT: usize = 65_535;
pub const DEFAULT_EXPORT: usize = 32;

type Judgement = Result<(), Refusal>;

impl Book {
    pub fn judge_begin(&self, suite: u16, kind: u8, psk: &[u8]) -> Judgement {
        let suite = Suite::from_number(suite);
        let kind = PskKind::from_number(kind);
        let wrong_size = match kind {
            None => false,
            Some(PskKind::Absent) => !psk.is_empty(),
            Some(PskKind::External) => !(1..=EXTERNAL_PSK_LIMIT).contains(&psk.len()),
            Some(PskKind::Resumption) => suite.is_some_and(|s| psk.len() != s.hash.length()),
        };
        lowest([
            (Refusal::NotAllowedHere, self.point != Point::Fresh),
            (Refusal::Unknown, suite.is_none() || kind.is_none()),
            (Refusal::WrongSize, wrong_size),
        ])
    }

    pub fn judge_feed(&self, message: &[u8]) -> Judgement {
        let taken = self.types_taken();
        let total = self.transcript.whole().len() + message.len();
        lowest([
            (Refusal::NotAllowedHere, taken.is_empty()),
            (Refusal::MessageLength, !is_one_message(message)),
            (Refusal::MessageType, !starts_with_one_of(message, taken)),
            (Refusal::OverLimit, total > TRANSCRIPT_LIMIT),
        ])
    }

    /// The message types Feed takes now (RFC 8446, B.3 has their names).
    fn types_taken(&self) -> &'static [u8] {
        let fed = |mark| self.transcript.has(mark);
        match self.point {
            Point::Early if !fed(Mark::ClientHello) => &[1],
            Point::Early if !fed(Mark::ServerHello) => &[2],
            Point::Handshake if !fed(Mark::ServerFinished) => &[8, 11, 13, 15, 20],
            Point::Application if !fed(Mark::ClientFinished) => &[5, 11, 15, 20],
            _ => &[],
        }
    }

    pub fn judge_early(&self) -> Judgement {
        let between_hellos =
            self.transcript.has(Mark::ClientHello) && !self.transcript.has(Mark::ServerHello);
        let allowed = self.point == Point::Early && between_hellos && !self.early_ran;
        lowest([
            (Refusal::NotAllowedHere, !allowed),
            (Refusal::NotHeld, !self.has_psk()),
        ])
    }

    pub fn judge_handshake(&self, group: u16, secret: &[u8]) -> Judgement {
        let allowed = self.point == Point::Early && self.transcript.has(Mark::ServerHello);
        let length = shared_secret_length(group);
        let all_zero = secret.iter().all(|byte| *byte == 0);
        lowest([
            (Refusal::NotAllowedHere, !allowed),
            (Refusal::Unknown, length.is_none()),
            (Refusal::WrongSize, length != Some(secret.len())),
            (Refusal::AllZero, refuses_all_zero(group) && all_zero),
            (Refusal::NoSecretAtAll, group == 0 && !self.has_psk()),
        ])
    }

    pub fn judge_application(&self) -> Judgement {
        let allowed = self.point == Point::Handshake && self.transcript.has(Mark::ServerFinished);
        lowest([(Refusal::NotAllowedHere, !allowed)])
    }

    pub fn judge_complete(&self) -> Judgement {
        let allowed = self.point == Point::Application && self.transcript.has(Mark::ClientFinished);
        lowest([(Refusal::NotAllowedHere, !allowed)])
    }

    pub fn judge_update(&self, side: u8) -> Judgement {
        let side = Side::from_number(side);
        let spent = side.is_some_and(|side| self.updates[side as usize] >= UPDATE_LIMIT);
        lowest([
            (Refusal::NotAllowedHere, self.point != Point::Complete),
            (Refusal::Unknown, side.is_none()),
            (Refusal::UpdatesSpent, spent),
        ])
    }

    pub fn judge_keys(&self, name: u8, room: usize) -> Judgement {
        let place = Place::of_keys(name);
        let length = self.suite.map_or(0, |s| s.key_length + s.iv_length);
        lowest([
            (Refusal::NotAllowedHere, self.is_fresh_or_closed()),
            (Refusal::Unknown, place.is_none()),
            (Refusal::NotHeld, !place.is_some_and(|p| self.holds(p))),
            (Refusal::OutputTooShort, room < length),
        ])
    }

    pub fn judge_finished(&self, side: u8, room: usize) -> Judgement {
        self.judge_check(side)?;
        lowest([(Refusal::OutputTooShort, room < self.hash_length())])
    }

    /// Only a known side can be out of its point, so an unknown one is 2 everywhere.
    pub fn judge_check(&self, side: u8) -> Judgement {
        let fed = |mark| self.transcript.has(mark);
        let allowed = match Side::from_number(side) {
            None => return Err(Refusal::Unknown),
            Some(Side::Server) => self.point == Point::Handshake && !fed(Mark::ServerFinished),
            Some(Side::Client) => self.point == Point::Application && !fed(Mark::ClientFinished),
        };
        lowest([(Refusal::NotAllowedHere, !allowed)])
    }

    pub fn judge_binder(&self, cut_hello: &[u8], room: usize) -> Judgement {
        let right_length = (4..=65_535).contains(&cut_hello.len());
        lowest([
            (Refusal::NotAllowedHere, self.point != Point::Early),
            (Refusal::NotHeld, !self.has_psk()),
            (Refusal::MessageLength, !right_length),
            (
                Refusal::MessageType,
                !starts_with_one_of(cut_hello, &[CLIENT_HELLO]),
            ),
            (Refusal::OutputTooShort, room < self.hash_length()),
        ])
    }

    /// Gives the length in force: 0 asks for 32 bytes under every hash.
    pub fn judge_export(
        &self,
        name: u8,
        label: &[u8],
        context: &[u8],
        asked: usize,
        room: usize,
    ) -> Answer {
        let place = Place::of_export(name);
        let length = if asked == 0 { DEFAULT_EXPORT } else { asked };
        let in_range = label_fits(label)
            && context.len() <= EXPORT_CONTEXT_LIMIT
            && length <= largest_expansion(self.hash_length());
        lowest([
            (Refusal::NotAllowedHere, self.is_fresh_or_closed()),
            (Refusal::Unknown, place.is_none()),
            (Refusal::NotHeld, !place.is_some_and(|p| self.holds(p))),
            (Refusal::OutOfRange, !in_range),
            (Refusal::OutputTooShort, room < length),
        ])?;
        Ok(length)
    }

    fn is_fresh_or_closed(&self) -> bool {
        matches!(self.point, Point::Fresh | Point::Closed)
    }
}

/// RFC 8446, 4: type, three bytes of length with the high byte first, and a body of that length.
fn is_one_message(message: &[u8]) -> bool {
    if !(4..=65_535).contains(&message.len()) {
        return false;
    }
    let field = u32::from_be_bytes([0, message[1], message[2], message[3]]);
    field as usize == message.len() - 4
}

fn starts_with_one_of(message: &[u8], types: &[u8]) -> bool {
    message.first().is_some_and(|first| types.contains(first))
}
