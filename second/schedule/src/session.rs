//! A session: its book, ten places for the secrets it holds, and the thirteen calls.
//!
//! Every call is judged from the book first, so a refused one changes nothing.

use crate::book::{Book, Place, Point, Side};
use crate::diagram;
use crate::lower::write_front;
use crate::refusal::{Answer, Refusal};
use crate::suite::Suite;

/// A place has room for the longest secret; the unused tail is zero.
pub const PLACE_LENGTH: usize = 48;

#[derive(Clone, Debug, Default, PartialEq, Eq)]
pub struct Session {
    book: Book,
    places: Places,
}

#[derive(Clone, Debug, PartialEq, Eq)]
struct Places([[u8; PLACE_LENGTH]; 10]);

impl Default for Places {
    fn default() -> Places {
        Places([[0; PLACE_LENGTH]; 10])
    }
}

impl Session {
    pub fn fresh() -> Session {
        Session::default()
    }

    pub fn point(&self) -> Point {
        self.book.point
    }

    pub fn book(&self) -> &Book {
        &self.book
    }

    pub fn place(&self, place: Place) -> &[u8; PLACE_LENGTH] {
        &self.places.0[place as usize]
    }

    pub fn begin(&mut self, suite: u16, kind: u8, psk: &[u8]) -> Answer {
        self.book.judge_begin(suite, kind, psk)?;
        self.book.note_begin(suite, kind, psk);
        self.settle(&[Place::Chain, Place::BinderKey])
    }

    pub fn feed(&mut self, message: &[u8]) -> Answer {
        self.book.judge_feed(message)?;
        self.book.transcript.add(message);
        Ok(0)
    }

    pub fn early(&mut self) -> Answer {
        self.book.judge_early()?;
        self.book.early_ran = true;
        self.settle(&[Place::ClientEarly, Place::EarlyExporter])
    }

    pub fn handshake(&mut self, group: u16, shared_secret: &[u8]) -> Answer {
        self.book.judge_handshake(group, shared_secret)?;
        self.book.note_handshake(shared_secret);
        self.settle(&[Place::Chain, Place::ClientHandshake, Place::ServerHandshake])
    }

    pub fn application(&mut self) -> Answer {
        self.book.judge_application()?;
        self.book.point = Point::Application;
        self.settle(&[
            Place::Chain,
            Place::ClientApplication,
            Place::ServerApplication,
            Place::Exporter,
        ])
    }

    pub fn complete(&mut self) -> Answer {
        self.book.judge_complete()?;
        self.book.point = Point::Complete;
        self.settle(&[Place::Resumption])
    }

    /// Moves the secret on by one step; from the start it would take one for each update made.
    pub fn update(&mut self, side: u8) -> Answer {
        self.book.judge_update(side)?;
        let side = Side::from_number(side).ok_or(Refusal::Unknown)?;
        let place = Place::application_secret_of(side);
        let next = diagram::next_application_secret(self.suite()?.hash, self.secret(place));
        self.book.updates[side as usize] += 1;
        self.put(place, &next);
        Ok(0)
    }

    pub fn close(&mut self) -> Answer {
        self.book.note_close();
        self.settle(&[])
    }

    pub fn keys(&self, name: u8, output: &mut [u8]) -> Answer {
        self.book.judge_keys(name, output.len())?;
        let suite = self.suite()?;
        let secret = self.secret(Place::of_keys(name).ok_or(Refusal::Unknown)?);
        let mut bytes = diagram::traffic_key(suite.hash, secret, suite.key_length);
        bytes.extend(diagram::traffic_iv(suite.hash, secret, suite.iv_length));
        Ok(write_front(output, &bytes))
    }

    pub fn finished(&self, side: u8, output: &mut [u8]) -> Answer {
        self.book.judge_finished(side, output.len())?;
        Ok(write_front(output, &self.finished_value(side)?))
    }

    /// Bytes of a wrong length are a no, however many they are.
    pub fn check(&self, side: u8, received: &[u8]) -> Result<bool, Refusal> {
        self.book.judge_check(side)?;
        Ok(self.finished_value(side)? == received)
    }

    pub fn binder(&self, cut_hello: &[u8], output: &mut [u8]) -> Answer {
        self.book.judge_binder(cut_hello, output.len())?;
        let base = self.secret(Place::BinderKey);
        let binder = diagram::finished(self.suite()?.hash, base, cut_hello);
        Ok(write_front(output, &binder))
    }

    pub fn export(
        &self,
        name: u8,
        label: &[u8],
        context: &[u8],
        asked: usize,
        output: &mut [u8],
    ) -> Answer {
        let length = self
            .book
            .judge_export(name, label, context, asked, output.len())?;
        let secret = self.secret(Place::of_export(name).ok_or(Refusal::Unknown)?);
        let bytes = diagram::export(self.suite()?.hash, secret, label, context, length);
        Ok(write_front(output, &bytes))
    }

    fn finished_value(&self, side: u8) -> Result<Vec<u8>, Refusal> {
        let side = Side::from_number(side).ok_or(Refusal::Unknown)?;
        let base = self.secret(Place::handshake_secret_of(side));
        let messages = self.book.transcript.whole();
        Ok(diagram::finished(self.suite()?.hash, base, messages))
    }

    /// Brings the places to what the book now holds: those named are worked out, those no longer
    /// held become zero.
    fn settle(&mut self, set: &[Place]) -> Answer {
        for place in Place::ALL {
            if !self.book.holds(place) {
                self.put(place, &[]);
            } else if set.contains(&place) {
                let secret = diagram::secret(&self.book, self.suite()?.hash, place);
                self.put(place, &secret);
            }
        }
        Ok(0)
    }

    fn put(&mut self, place: Place, secret: &[u8]) {
        let bytes = &mut self.places.0[place as usize];
        bytes.fill(0);
        bytes[..secret.len()].copy_from_slice(secret);
    }

    fn secret(&self, place: Place) -> &[u8] {
        &self.place(place)[..self.book.hash_length()]
    }

    /// Every call that needs the suite was refused with 1 where there is none.
    fn suite(&self) -> Result<Suite, Refusal> {
        self.book.suite.ok_or(Refusal::NotAllowedHere)
    }
}
