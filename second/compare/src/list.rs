//! A list: the standard input of one run of a program.

use crate::call::Call;

/// Which program of each pair takes a list.
#[derive(Clone, Copy, PartialEq, Eq)]
pub enum Program {
    Calls,
    Replay,
}

/// A named input.
pub struct List {
    pub name: String,
    pub program: Program,
    pub bytes: Vec<u8>,
    records: usize,
    /// Ordinals of the Checks that have to answer yes.
    pub yes: Vec<usize>,
}

/// A record's bytes before its payload.
const HEADER: usize = 6;

impl List {
    pub fn new(program: Program, name: String) -> List {
        List {
            name,
            program,
            bytes: Vec::new(),
            records: 0,
            yes: Vec::new(),
        }
    }

    /// A list of `bytes`, whole records or not.
    pub fn raw(program: Program, name: String, bytes: Vec<u8>) -> List {
        List {
            bytes,
            ..List::new(program, name)
        }
    }

    pub fn push(&mut self, call: &Call) {
        self.bytes.extend_from_slice(&record(call));
        self.records += 1;
    }

    pub fn extend(&mut self, calls: &[Call]) {
        for call in calls {
            self.push(call);
        }
    }

    /// Appends a Check that has to answer yes.
    pub fn push_yes(&mut self, check: &Call) {
        self.push(check);
        self.yes.push(self.records);
    }
}

/// A call as framed in the journal and in the input of `calls`.
pub fn record(call: &Call) -> Vec<u8> {
    let mut bytes = (call.payload.len() as u32).to_le_bytes().to_vec();
    bytes.extend_from_slice(&call.kind.to_le_bytes());
    bytes.extend_from_slice(&call.payload);
    bytes
}

/// The bytes of a journal of `calls`.
pub fn journal(calls: &[Call]) -> Vec<u8> {
    calls.iter().flat_map(record).collect()
}

/// The whole records at the front of `bytes`.
pub fn records(mut bytes: &[u8]) -> Vec<Call> {
    let mut calls = Vec::new();
    while bytes.len() >= HEADER {
        let length = u32::from_le_bytes([bytes[0], bytes[1], bytes[2], bytes[3]]) as usize;
        if length > bytes.len() - HEADER {
            break;
        }
        calls.push(Call {
            kind: u16::from_le_bytes([bytes[4], bytes[5]]),
            payload: bytes[HEADER..HEADER + length].to_vec(),
        });
        bytes = &bytes[HEADER + length..];
    }
    calls
}

#[cfg(test)]
mod tests {
    use super::{journal, records};
    use crate::call;

    #[test]
    fn frames_as_document_01_prints() {
        let calls = [call::begin(0x1301, 0, &[]), call::early()];
        let bytes = [3, 0, 0, 0, 1, 0, 1, 0x13, 0, 0, 0, 0, 0, 3, 0];
        assert_eq!(journal(&calls), bytes);
        assert_eq!(records(&bytes).len(), 2);
        assert_eq!(records(&bytes[..14]).len(), 1);
    }
}
