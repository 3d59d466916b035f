//! The book of a session: what the calls gave, the point they led to, and the secrets held there.

use crate::suite::Suite;
use crate::transcript::Transcript;

/// How far the handshake has come.
#[derive(Clone, Copy, Debug, Default, PartialEq, Eq, PartialOrd, Ord)]
pub enum Point {
    #[default]
    Fresh,
    Early,
    Handshake,
    Application,
    Complete,
    Closed,
}

#[derive(Clone, Copy, Debug, Default, PartialEq, Eq)]
pub enum PskKind {
    #[default]
    Absent,
    External,
    Resumption,
}

impl PskKind {
    pub fn from_number(number: u8) -> Option<PskKind> {
        match number {
            0 => Some(PskKind::Absent),
            1 => Some(PskKind::External),
            2 => Some(PskKind::Resumption),
            _ => None,
        }
    }
}

#[derive(Clone, Copy, Debug, PartialEq, Eq)]
pub enum Side {
    Client,
    Server,
}

impl Side {
    pub fn from_number(number: u8) -> Option<Side> {
        match number {
            1 => Some(Side::Client),
            2 => Some(Side::Server),
            _ => None,
        }
    }
}

/// The ten secrets a session can hold, in the order in which they are printed.
#[derive(Clone, Copy, Debug, PartialEq, Eq)]
pub enum Place {
    /// The early, the handshake and the master secret in turn.
    Chain,
    BinderKey,
    ClientEarly,
    EarlyExporter,
    ClientHandshake,
    ServerHandshake,
    ClientApplication,
    ServerApplication,
    Exporter,
    Resumption,
}

impl Place {
    pub const ALL: [Place; 10] = [
        Place::Chain,
        Place::BinderKey,
        Place::ClientEarly,
        Place::EarlyExporter,
        Place::ClientHandshake,
        Place::ServerHandshake,
        Place::ClientApplication,
        Place::ServerApplication,
        Place::Exporter,
        Place::Resumption,
    ];

    /// The secret behind a name of Keys.
    pub fn of_keys(name: u8) -> Option<Place> {
        match name {
            1 => Some(Place::ClientEarly),
            2 => Some(Place::ClientHandshake),
            3 => Some(Place::ServerHandshake),
            4 => Some(Place::ClientApplication),
            5 => Some(Place::ServerApplication),
            _ => None,
        }
    }

    /// The secret behind a name of Export.
    pub fn of_export(name: u8) -> Option<Place> {
        match name {
            1 => Some(Place::EarlyExporter),
            2 => Some(Place::Exporter),
            _ => None,
        }
    }

    pub fn handshake_secret_of(side: Side) -> Place {
        match side {
            Side::Client => Place::ClientHandshake,
            Side::Server => Place::ServerHandshake,
        }
    }

    pub fn application_secret_of(side: Side) -> Place {
        match side {
            Side::Client => Place::ClientApplication,
            Side::Server => Place::ServerApplication,
        }
    }
}

/// A fresh book is at Fresh and holds nothing else.
#[derive(Clone, Debug, Default, PartialEq, Eq)]
pub struct Book {
    pub point: Point,
    pub suite: Option<Suite>,
    pub psk_kind: PskKind,
    pub psk: Vec<u8>,
    pub shared_secret: Vec<u8>,
    pub transcript: Transcript,
    pub early_ran: bool,
    pub updates: [u32; 2],
}

impl Book {
    /// Decided by the kind: an external PSK of zeros is one.
    pub fn has_psk(&self) -> bool {
        self.psk_kind != PskKind::Absent
    }

    /// H, or 0 where no suite is chosen.
    pub fn hash_length(&self) -> usize {
        self.suite.map_or(0, |suite| suite.hash.length())
    }

    /// From the accepted call that sets a place to the next that zeroes it.
    pub fn holds(&self, place: Place) -> bool {
        let between = |first, last| first <= self.point && self.point <= last;
        match place {
            Place::Chain => between(Point::Early, Point::Application),
            Place::BinderKey => self.has_psk() && between(Point::Early, Point::Early),
            Place::ClientEarly => self.early_ran && between(Point::Early, Point::Application),
            Place::EarlyExporter => self.early_ran && between(Point::Early, Point::Application),
            Place::ClientHandshake => between(Point::Handshake, Point::Application),
            Place::ServerHandshake => between(Point::Handshake, Point::Application),
            Place::ClientApplication => between(Point::Application, Point::Complete),
            Place::ServerApplication => between(Point::Application, Point::Complete),
            Place::Exporter => between(Point::Application, Point::Complete),
            Place::Resumption => between(Point::Complete, Point::Complete),
        }
    }

    pub fn note_begin(&mut self, suite: u16, kind: u8, psk: &[u8]) {
        self.suite = Suite::from_number(suite);
        self.psk_kind = PskKind::from_number(kind).unwrap_or_default();
        self.psk = psk.to_vec();
        self.point = Point::Early;
    }

    pub fn note_handshake(&mut self, shared_secret: &[u8]) {
        self.shared_secret = shared_secret.to_vec();
        self.point = Point::Handshake;
    }

    /// Empties all but the point.
    pub fn note_close(&mut self) {
        *self = Book {
            point: Point::Closed,
            ..Book::default()
        };
    }
}
