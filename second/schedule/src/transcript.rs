//! The handshake messages fed so far, as plain bytes, and the ends of the four messages that a
//! secret's transcript runs to.

/// A message that ends a transcript of the RFC's diagram.
#[derive(Clone, Copy, Debug, PartialEq, Eq)]
pub enum Mark {
    ClientHello,
    ServerHello,
    ServerFinished,
    ClientFinished,
}

pub const CLIENT_HELLO: u8 = 1;
pub const SERVER_HELLO: u8 = 2;
pub const FINISHED: u8 = 20;

#[derive(Clone, Debug, Default, PartialEq, Eq)]
pub struct Transcript {
    bytes: Vec<u8>,
    ends: [Option<usize>; 4],
}

impl Transcript {
    pub fn has(&self, mark: Mark) -> bool {
        self.ends[mark as usize].is_some()
    }

    /// The messages from the first to the marked one; none where that isn't fed yet.
    pub fn through(&self, mark: Mark) -> &[u8] {
        &self.bytes[..self.ends[mark as usize].unwrap_or(0)]
    }

    pub fn whole(&self) -> &[u8] {
        &self.bytes
    }

    /// Adds a message that is taken at this point, so the first Finished is the server's and the
    /// second the client's.
    pub fn add(&mut self, message: &[u8]) {
        self.bytes.extend_from_slice(message);
        let mark = match message[0] {
            CLIENT_HELLO => Mark::ClientHello,
            SERVER_HELLO => Mark::ServerHello,
            FINISHED if !self.has(Mark::ServerFinished) => Mark::ServerFinished,
            FINISHED => Mark::ClientFinished,
            _ => return,
        };
        self.ends[mark as usize] = Some(self.bytes.len());
    }
}
