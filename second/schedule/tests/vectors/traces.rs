//! RFC 8448's traces of sections 3, 4, 6 and 7, driven through the session's calls.

use crate::json::{vectors, Json};
use schedule::book::{Place, Point};
use schedule::session::Session;

const CLIENT: u8 = 1;
const SERVER: u8 = 2;

#[test]
fn section_3_simple() {
    run("rfc8448_simple_1rtt", 3);
}

#[test]
fn section_4_resumed_with_early_data() {
    run("rfc8448_resumed_0rtt", 4);
}

#[test]
fn section_6_client_authentication() {
    run("rfc8448_client_authentication", 6);
}

#[test]
fn section_7_compatibility_mode() {
    run("rfc8448_compatibility_mode", 7);
}

fn run(name: &str, section: u64) {
    let trace = vectors(name);
    assert_eq!(trace.get("section").number(), section);
    let mut driver = Driver {
        session: Session::fresh(),
        expected: trace.get("expected"),
    };
    driver.begin(&trace);
    for message in trace.get("messages").items() {
        driver.before(message);
        assert_eq!(driver.session.feed(&message.get("hex").bytes()), Ok(0));
        driver.after(&trace, message);
    }
    assert_eq!(driver.session.point(), Point::Complete);
    driver.holds(Place::Resumption, "resumption");
    driver.keys(4, "client_application");
    driver.keys(5, "server_application");
}

struct Driver<'a> {
    session: Session,
    expected: &'a Json,
}

impl Driver<'_> {
    fn begin(&mut self, trace: &Json) {
        let suite = u16::from_str_radix(trace.get("suite").text(), 16).expect("suite");
        let kind = trace.get("kind").number() as u8;
        assert_eq!(
            self.session.begin(suite, kind, &trace.get("psk").bytes()),
            Ok(0)
        );
        self.holds(Place::Chain, "early_secret");
        if kind != 0 {
            self.binder();
        }
    }

    fn binder(&self) {
        self.holds(Place::BinderKey, "binder_key");
        let cut_hello = self.expected.get("binder_cut_hello").bytes();
        let mut output = [0; 32];
        assert_eq!(self.session.binder(&cut_hello, &mut output), Ok(32));
        assert_eq!(output[..], self.expected.get("binder").bytes());
    }

    /// A Finished value is asked for before its message is fed.
    fn before(&self, message: &Json) {
        if message.get("name").text() == "Finished" {
            match message.get("from").text() {
                "server" => self.finished(SERVER, "server_finished"),
                _ => self.finished(CLIENT, "client_finished"),
            }
        }
    }

    fn after(&mut self, trace: &Json, message: &Json) {
        match (message.get("name").text(), message.get("from").text()) {
            ("ClientHello", _) if trace.get("kind").number() != 0 => self.early(),
            ("ServerHello", _) => self.handshake(trace),
            ("Finished", "server") => self.application(),
            ("Finished", _) => assert_eq!(self.session.complete(), Ok(0)),
            _ => (),
        }
    }

    fn early(&mut self) {
        assert_eq!(self.session.early(), Ok(0));
        self.holds(Place::ClientEarly, "client_early");
        self.holds(Place::EarlyExporter, "early_exporter");
        self.keys(1, "client_early");
    }

    fn handshake(&mut self, trace: &Json) {
        let group = u16::from_str_radix(trace.get("group").text(), 16).expect("group");
        let secret = trace.get("secret").bytes();
        assert_eq!(self.session.handshake(group, &secret), Ok(0));
        self.holds(Place::Chain, "handshake_secret");
        self.holds(Place::ClientHandshake, "client_handshake");
        self.holds(Place::ServerHandshake, "server_handshake");
        self.keys(2, "client_handshake");
        self.keys(3, "server_handshake");
    }

    fn application(&mut self) {
        assert_eq!(self.session.application(), Ok(0));
        self.holds(Place::Chain, "master_secret");
        self.holds(Place::ClientApplication, "client_application");
        self.holds(Place::ServerApplication, "server_application");
        self.holds(Place::Exporter, "exporter");
    }

    fn holds(&self, place: Place, name: &str) {
        let bytes = self.session.place(place);
        assert_eq!(bytes[..32], self.expected.get(name).bytes(), "{name}");
        assert_eq!(bytes[32..], [0; 16]);
    }

    fn keys(&self, number: u8, name: &str) {
        let mut output = [0xa5; 29];
        assert_eq!(self.session.keys(number, &mut output), Ok(28));
        assert_eq!(
            output[..16],
            self.expected.get(&format!("{name}_key")).bytes()
        );
        assert_eq!(
            output[16..28],
            self.expected.get(&format!("{name}_iv")).bytes()
        );
        assert_eq!(output[28], 0xa5);
    }

    fn finished(&self, side: u8, name: &str) {
        let expected = self.expected.get(name).bytes();
        let mut output = [0; 32];
        assert_eq!(self.session.finished(side, &mut output), Ok(32));
        assert_eq!(output[..], expected);
        assert_eq!(self.session.check(side, &expected), Ok(true));
        assert_eq!(self.session.check(side, &expected[..31]), Ok(false));
    }
}
