//! Names of calls, and records in words.

use crate::call::{self, Call};

/// A call's name in document 01.
pub fn name(kind: u16) -> &'static str {
    match kind {
        call::BEGIN => "Begin",
        call::FEED => "Feed",
        call::EARLY => "Early",
        call::HANDSHAKE => "Handshake",
        call::APPLICATION => "Application",
        call::COMPLETE => "Complete",
        call::UPDATE => "Update",
        call::CLOSE => "Close",
        call::KEYS => "Keys",
        call::FINISHED => "Finished",
        call::CHECK => "Check",
        call::BINDER => "Binder",
        call::EXPORT => "Export",
        call::HASH => "hash",
        call::HMAC => "HMAC",
        call::EXTRACT => "Extract",
        call::EXPAND => "Expand",
        call::EXPAND_LABEL => "Expand-Label",
        call::DERIVE_SECRET => "Derive-Secret",
        call::WRITE => "journal write",
        call::READ => "journal read",
        _ => "unknown kind",
    }
}

/// Bytes of a payload that are shown.
const SHOWN: usize = 48;

/// A record: its call, size and the front of its payload.
pub fn record(call: &Call) -> String {
    let shown = &call.payload[..call.payload.len().min(SHOWN)];
    let mut text = format!(
        "{} (kind {}), payload of {} bytes",
        name(call.kind),
        call.kind,
        call.payload.len()
    );
    if !shown.is_empty() {
        text.push(':');
    }
    for byte in shown {
        text.push_str(&format!(" {byte:02x}"));
    }
    if shown.len() < call.payload.len() {
        text.push_str(" ...");
    }
    text
}
