//! A whole handshake as the calls it makes, and the stages it goes through.

use crate::call::{self, message, Call};
use crate::rng::Rng;
use crate::suite::{Group, Suite};

/// How far a session is: document 01's points, parted where a fed message changes what is allowed.
#[derive(Clone, Copy, PartialEq, Eq, PartialOrd, Ord, Debug)]
pub enum Stage {
    Fresh,
    Begun,
    Hello,
    EarlyRun,
    ServerHello,
    Handshake,
    ServerFinished,
    Application,
    ClientFinished,
    Complete,
    Updated,
    Closed,
}

pub const STAGES: [Stage; 12] = [
    Stage::Fresh,
    Stage::Begun,
    Stage::Hello,
    Stage::EarlyRun,
    Stage::ServerHello,
    Stage::Handshake,
    Stage::ServerFinished,
    Stage::Application,
    Stage::ClientFinished,
    Stage::Complete,
    Stage::Updated,
    Stage::Closed,
];

/// PSK kinds.
pub const NONE: u8 = 0;
pub const EXTERNAL: u8 = 1;
pub const RESUMPTION: u8 = 2;

/// What one handshake is made of.
#[derive(Clone)]
pub struct Plan {
    pub suite: Suite,
    pub psk_kind: u8,
    pub psk: Vec<u8>,
    pub early: bool,
    pub group: Group,
    pub secret: Vec<u8>,
}

/// A call and the stage that it leads to.
pub struct Step {
    pub call: Call,
    pub stage: Stage,
}

impl Plan {
    /// A plan with random secrets; Early is run only with a PSK.
    pub fn new(suite: Suite, psk_kind: u8, early: bool, group: Group, rng: &mut Rng) -> Plan {
        let psk = match psk_kind {
            EXTERNAL => rng.between(1, 128),
            RESUMPTION => suite.hash,
            _ => 0,
        };
        Plan {
            suite,
            psk_kind,
            psk: rng.bytes(psk),
            early: early && psk_kind != NONE,
            group,
            secret: shared_secret(group, rng),
        }
    }

    /// The plan in a list's name.
    pub fn words(&self) -> String {
        let psk = ["no PSK", "external PSK", "resumption PSK"][usize::from(self.psk_kind)];
        let early = if self.early { ", early" } else { "" };
        let (suite, group) = (self.suite.number, self.group.number);
        format!("{suite:04x}, group {group:04x}, {psk}{early}")
    }

    pub fn begin(&self) -> Call {
        call::begin(self.suite.number, self.psk_kind, &self.psk)
    }

    pub fn handshake(&self) -> Call {
        call::handshake(self.group.number, &self.secret)
    }

    /// The calls from a fresh session to a closed one, messages drawn from `rng`.
    pub fn steps(&self, rng: &mut Rng) -> Vec<Step> {
        let mut steps = Vec::new();
        let mut step = |call, stage| steps.push(Step { call, stage });
        step(self.begin(), Stage::Begun);
        step(feed(1, rng), Stage::Hello);
        if self.early {
            step(call::early(), Stage::EarlyRun);
        }
        step(feed(2, rng), Stage::ServerHello);
        step(self.handshake(), Stage::Handshake);
        for _ in 0..rng.below(4) {
            step(feed(rng.pick(&[8, 11, 13, 15]), rng), Stage::Handshake);
        }
        step(feed(20, rng), Stage::ServerFinished);
        step(call::application(), Stage::Application);
        for _ in 0..rng.below(4) {
            step(feed(rng.pick(&[5, 11, 15]), rng), Stage::Application);
        }
        step(feed(20, rng), Stage::ClientFinished);
        step(call::complete(), Stage::Complete);
        for side in [1, 2, 2, 1, 1] {
            step(call::update(side), Stage::Updated);
        }
        step(call::close(), Stage::Closed);
        steps
    }

    /// The calls that lead to `stage`; a stage that the plan passes over is the one before it.
    pub fn up_to(&self, stage: Stage, rng: &mut Rng) -> Vec<Call> {
        let mut steps = self.steps(rng);
        steps.retain(|step| step.stage <= stage);
        steps.into_iter().map(|step| step.call).collect()
    }
}

/// A random secret of the group's size; now and then with leading zeros, which stay.
pub fn shared_secret(group: Group, rng: &mut Rng) -> Vec<u8> {
    let mut secret = rng.bytes(group.secret);
    if rng.chance(20) {
        let zeros = rng.below(group.secret.max(1));
        secret[..zeros].fill(0);
    }
    secret
}

/// A well-formed message of a type, its size drawn mostly around the hashes' block edges.
pub fn feed(kind: u8, rng: &mut Rng) -> Call {
    let body = match rng.below(40) {
        0 => rng.between(1000, 9000),
        1..=4 => 0,
        5..=14 => rng.between(100, 300),
        _ => rng.below(140),
    };
    call::feed(&message(kind, &rng.bytes(body)))
}
