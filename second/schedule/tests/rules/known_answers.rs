//! Values that no published trace has: SHA-384, an external PSK, updates and exporters. They were
//! worked out by the RFC's diagram with the HMAC of Python's standard library.

use crate::states::{message, session, State};
use schedule::book::Place;
use schedule::session::Session;

const CLIENT_EARLY: &str = "0200b36fa619647ba6ef72d105f83cf3e8931fd422bc6279a387d772e0624db7\
                            fcde25d7ce775cd02d93aae373a32a74";
const BINDER: &str = "894c45340356edb0118ae71b7a0275eb843ee1d75803add8530549aced3ca1d3\
                      3b37968e28395b14781517f561a676a5";
const EARLY_EXPORT: &str = "facb051405c75279e3ed933ab08310e7";
const CLIENT_FINISHED: &str = "e9ed135ad261d74648ce7475209d09d962269f493a33bd3ac696621cd45a422d\
                               d3b3dbd8fb08861e81e4e7a979f0ecd7";
const EXPORT: &str = "8e69adbd208815559749264e63da7b578d8765094b0f5193295be41a02516f63\
                      77dc6e086358304db633764fb819bb1485d5928baa799b1bd40e4b4c";
const RESUMPTION: &str = "407ca561711ede8eaa3042263c98a500248a85dd34179d0e3baf21e71a385280\
                          57c7b5d3a54e74ec6723708518f7a506";
const CLIENT_AFTER_2: &str = "545eda864e650cf2ba419e628fc825eda8b17a887f757b53fc0501a001642a80\
                              76bc9ccebf4d8b53c34d218b03ee2d42";
const SERVER_AFTER_1: &str = "08ddc4b93c58ca7709d7cc0e95e7fcfba577202a088e16b20c2beb6860bfcde3\
                              4850a03db2d67580856b0be2e06e612b";
const SERVER_KEY_IV: &str = "a3c775db8bc20f019a336b710606fae6a8417756bb02d828c8363cef0caad418\
                             cc58aff51cded3f337fa4fec";

fn at(state: State) -> Session {
    session(0x1302, Some(b"psk"), state)
}

fn hex(bytes: &[u8]) -> String {
    bytes.iter().map(|byte| format!("{byte:02x}")).collect()
}

#[test]
fn early() {
    let session = at(State::EarlyRan);
    assert_eq!(hex(session.place(Place::ClientEarly)), CLIENT_EARLY);
    let mut output = [0; 48];
    assert_eq!(session.binder(&message(1, 40), &mut output), Ok(48));
    assert_eq!(hex(&output), BINDER);
    let mut output = [0; 16];
    assert_eq!(
        session.export(1, b"EXPORTER-test", b"", 16, &mut output),
        Ok(16)
    );
    assert_eq!(hex(&output), EARLY_EXPORT);
}

#[test]
fn application() {
    let session = at(State::Application);
    let mut output = [0; 48];
    assert_eq!(session.finished(1, &mut output), Ok(48));
    assert_eq!(hex(&output), CLIENT_FINISHED);
    let mut output = [0; 60];
    assert_eq!(
        session.export(2, b"EXPORTER-test", b"context", 60, &mut output),
        Ok(60)
    );
    assert_eq!(hex(&output), EXPORT);
}

#[test]
fn complete() {
    let mut session = at(State::Complete);
    assert_eq!(hex(session.place(Place::Resumption)), RESUMPTION);
    for side in [1, 2, 1] {
        assert_eq!(session.update(side), Ok(0));
    }
    assert_eq!(hex(session.place(Place::ClientApplication)), CLIENT_AFTER_2);
    assert_eq!(hex(session.place(Place::ServerApplication)), SERVER_AFTER_1);
    let mut output = [0; 44];
    assert_eq!(session.keys(5, &mut output), Ok(44));
    assert_eq!(hex(&output), SERVER_KEY_IV);
}
