//! The functions of `include/bindcricket.h`, in its order. A test holds these declarations to that
//! file.

extern "C" {
    pub(super) fn bindcricket_fresh(session: *mut u8, session_size: usize) -> u8;
    pub(super) fn bindcricket_begin(
        session: *mut u8,
        session_size: usize,
        suite: u16,
        kind: u8,
        psk: *const u8,
        psk_size: usize,
    ) -> u8;
    pub(super) fn bindcricket_feed(
        session: *mut u8,
        session_size: usize,
        message: *const u8,
        message_size: usize,
    ) -> u8;
    pub(super) fn bindcricket_early(session: *mut u8, session_size: usize) -> u8;
    pub(super) fn bindcricket_handshake(
        session: *mut u8,
        session_size: usize,
        group: u16,
        secret: *const u8,
        secret_size: usize,
    ) -> u8;
    pub(super) fn bindcricket_application(session: *mut u8, session_size: usize) -> u8;
    pub(super) fn bindcricket_complete(session: *mut u8, session_size: usize) -> u8;
    pub(super) fn bindcricket_update(session: *mut u8, session_size: usize, side: u8) -> u8;
    pub(super) fn bindcricket_close(session: *mut u8, session_size: usize) -> u8;
    pub(super) fn bindcricket_keys(
        session: *const u8,
        session_size: usize,
        name: u8,
        out: *mut u8,
        out_size: usize,
        written: *mut usize,
    ) -> u8;
    pub(super) fn bindcricket_finished(
        session: *const u8,
        session_size: usize,
        side: u8,
        out: *mut u8,
        out_size: usize,
        written: *mut usize,
    ) -> u8;
    pub(super) fn bindcricket_check(
        session: *const u8,
        session_size: usize,
        side: u8,
        received: *const u8,
        received_size: usize,
        yes: *mut u8,
    ) -> u8;
    pub(super) fn bindcricket_binder(
        session: *const u8,
        session_size: usize,
        hello: *const u8,
        hello_size: usize,
        out: *mut u8,
        out_size: usize,
        written: *mut usize,
    ) -> u8;
    pub(super) fn bindcricket_export(
        session: *const u8,
        session_size: usize,
        name: u8,
        label: *const u8,
        label_size: usize,
        context: *const u8,
        context_size: usize,
        length: usize,
        out: *mut u8,
        out_size: usize,
        written: *mut usize,
    ) -> u8;
    pub(super) fn bindcricket_hash(
        suite: u16,
        input: *const u8,
        input_size: usize,
        out: *mut u8,
        out_size: usize,
        written: *mut usize,
    ) -> u8;
    pub(super) fn bindcricket_hmac(
        suite: u16,
        key: *const u8,
        key_size: usize,
        message: *const u8,
        message_size: usize,
        out: *mut u8,
        out_size: usize,
        written: *mut usize,
    ) -> u8;
    pub(super) fn bindcricket_extract(
        suite: u16,
        salt: *const u8,
        salt_size: usize,
        input: *const u8,
        input_size: usize,
        out: *mut u8,
        out_size: usize,
        written: *mut usize,
    ) -> u8;
    pub(super) fn bindcricket_expand(
        suite: u16,
        secret: *const u8,
        secret_size: usize,
        info: *const u8,
        info_size: usize,
        length: usize,
        out: *mut u8,
        out_size: usize,
        written: *mut usize,
    ) -> u8;
    pub(super) fn bindcricket_expand_label(
        suite: u16,
        secret: *const u8,
        secret_size: usize,
        label: *const u8,
        label_size: usize,
        context: *const u8,
        context_size: usize,
        length: usize,
        out: *mut u8,
        out_size: usize,
        written: *mut usize,
    ) -> u8;
    pub(super) fn bindcricket_derive_secret(
        suite: u16,
        secret: *const u8,
        secret_size: usize,
        label: *const u8,
        label_size: usize,
        messages: *const u8,
        messages_size: usize,
        out: *mut u8,
        out_size: usize,
        written: *mut usize,
    ) -> u8;
    pub(super) fn bindcricket_journal_write(
        kind: u16,
        number: u16,
        small: u8,
        body: *const u8,
        body_size: usize,
        out: *mut u8,
        out_size: usize,
        written: *mut usize,
    ) -> u8;
    pub(super) fn bindcricket_journal_read(
        journal: *const u8,
        journal_size: usize,
        place: usize,
        kind: *mut u16,
        start: *mut usize,
        size: *mut usize,
        next: *mut usize,
    ) -> u8;
}
