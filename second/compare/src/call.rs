//! Calls as records of the program `calls`; kinds 1 to 8 are the journal's too.

pub const BEGIN: u16 = 1;
pub const FEED: u16 = 2;
pub const EARLY: u16 = 3;
pub const HANDSHAKE: u16 = 4;
pub const APPLICATION: u16 = 5;
pub const COMPLETE: u16 = 6;
pub const UPDATE: u16 = 7;
pub const CLOSE: u16 = 8;
pub const KEYS: u16 = 101;
pub const FINISHED: u16 = 102;
pub const CHECK: u16 = 103;
pub const BINDER: u16 = 104;
pub const EXPORT: u16 = 105;
pub const HASH: u16 = 201;
pub const HMAC: u16 = 202;
pub const EXTRACT: u16 = 203;
pub const EXPAND: u16 = 204;
pub const EXPAND_LABEL: u16 = 205;
pub const DERIVE_SECRET: u16 = 206;
pub const WRITE: u16 = 301;
pub const READ: u16 = 302;

/// The longest lent output that `calls` takes.
pub const ROOM: usize = 131_072;

/// The longest message, cut ClientHello and journal payload.
pub const LONGEST: usize = 65_535;

/// A record: its kind and payload.
#[derive(Clone)]
pub struct Call {
    pub kind: u16,
    pub payload: Vec<u8>,
}

/// A payload as it grows, numbers little-endian.
struct Payload(Vec<u8>);

impl Payload {
    fn one(mut self, number: u8) -> Payload {
        self.0.push(number);
        self
    }

    fn two(self, number: u16) -> Payload {
        self.rest(&number.to_le_bytes())
    }

    fn four(self, number: usize) -> Payload {
        self.rest(&(number as u32).to_le_bytes())
    }

    fn rest(mut self, bytes: &[u8]) -> Payload {
        self.0.extend_from_slice(bytes);
        self
    }

    fn sized(self, bytes: &[u8]) -> Payload {
        self.four(bytes.len()).rest(bytes)
    }

    fn of(self, kind: u16) -> Call {
        Call {
            kind,
            payload: self.0,
        }
    }
}

fn payload() -> Payload {
    Payload(Vec::new())
}

/// A record of any kind and payload.
pub fn raw(kind: u16, bytes: &[u8]) -> Call {
    payload().rest(bytes).of(kind)
}

pub fn begin(suite: u16, kind: u8, psk: &[u8]) -> Call {
    payload().two(suite).one(kind).rest(psk).of(BEGIN)
}

pub fn feed(message: &[u8]) -> Call {
    raw(FEED, message)
}

pub fn early() -> Call {
    raw(EARLY, &[])
}

pub fn handshake(group: u16, secret: &[u8]) -> Call {
    payload().two(group).rest(secret).of(HANDSHAKE)
}

pub fn application() -> Call {
    raw(APPLICATION, &[])
}

pub fn complete() -> Call {
    raw(COMPLETE, &[])
}

pub fn update(side: u8) -> Call {
    raw(UPDATE, &[side])
}

pub fn close() -> Call {
    raw(CLOSE, &[])
}

pub fn keys(name: u8, room: usize) -> Call {
    payload().one(name).four(room).of(KEYS)
}

pub fn finished(side: u8, room: usize) -> Call {
    payload().one(side).four(room).of(FINISHED)
}

pub fn check(side: u8, received: &[u8]) -> Call {
    payload().one(side).rest(received).of(CHECK)
}

pub fn binder(room: usize, hello: &[u8]) -> Call {
    payload().four(room).rest(hello).of(BINDER)
}

pub fn export(name: u8, length: usize, room: usize, label: &[u8], context: &[u8]) -> Call {
    let front = payload().one(name).four(length).four(room);
    front.sized(label).rest(context).of(EXPORT)
}

pub fn hash(suite: u16, room: usize, input: &[u8]) -> Call {
    payload().two(suite).four(room).rest(input).of(HASH)
}

pub fn hmac(suite: u16, room: usize, key: &[u8], message: &[u8]) -> Call {
    let front = payload().two(suite).four(room);
    front.sized(key).rest(message).of(HMAC)
}

pub fn extract(suite: u16, room: usize, salt: &[u8], input: &[u8]) -> Call {
    let front = payload().two(suite).four(room);
    front.sized(salt).rest(input).of(EXTRACT)
}

pub fn expand(suite: u16, length: usize, room: usize, secret: &[u8], info: &[u8]) -> Call {
    let front = payload().two(suite).four(length).four(room);
    front.sized(secret).rest(info).of(EXPAND)
}

/// `texts` are the label and the context.
pub fn expand_label(
    suite: u16,
    length: usize,
    room: usize,
    secret: &[u8],
    texts: (&[u8], &[u8]),
) -> Call {
    let front = payload().two(suite).four(length).four(room).sized(secret);
    front.sized(texts.0).rest(texts.1).of(EXPAND_LABEL)
}

pub fn derive_secret(
    suite: u16,
    room: usize,
    secret: &[u8],
    label: &[u8],
    messages: &[u8],
) -> Call {
    let front = payload().two(suite).four(room).sized(secret);
    front.sized(label).rest(messages).of(DERIVE_SECRET)
}

/// The journal's writing of `call`.
pub fn write(call: &Call, room: usize) -> Call {
    let front = payload().two(call.kind).four(room);
    front.rest(&call.payload).of(WRITE)
}

/// The journal's reading at `place`.
pub fn read(place: u64, journal: &[u8]) -> Call {
    let front = payload().rest(&place.to_le_bytes());
    front.rest(journal).of(READ)
}

/// A whole handshake message: type, 3-byte length high byte first, body.
pub fn message(kind: u8, body: &[u8]) -> Vec<u8> {
    let length = (body.len() as u32).to_be_bytes();
    let mut bytes = vec![kind, length[1], length[2], length[3]];
    bytes.extend_from_slice(body);
    bytes
}
