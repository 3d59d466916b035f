//! The C functions behind safe ones: numbers, slices and a session in, a number or a refusal out.
//!
//! All unsafe code of the crate is here. What the header asks of a caller holds for every call
//! below:
//!
//! - a pointer comes from a slice or a reference together with its size, so it is valid for that
//!   many bytes and never null;
//! - a buffer that is written is lent by `&mut`, so it overlaps no other;
//! - no function keeps a pointer, and every one returns: none unwinds.

mod c;
mod clear;

use crate::Refusal;
use clear::cleared;
pub(crate) use clear::wipe;
pub use clear::STACK_BYTES;

/// The bytes of a session: any bytes at all are safe to pass.
pub(crate) type SessionBytes = [u8; 696];

/// What a number says. No function gives one outside the table to a buffer of the session's size;
/// it would be read as 13, which only the journal's reader gives.
fn done(number: u8) -> Result<(), Refusal> {
    match number {
        0 => Ok(()),
        _ => Err(Refusal::from_number(number).unwrap_or(Refusal::DamagedRecord)),
    }
}

/// Makes a call that writes to `out`: gives the number of bytes written, which is at most the size
/// of `out`.
fn writing(
    out: &mut [u8],
    call: impl FnOnce(*mut u8, usize, *mut usize) -> u8,
) -> Result<usize, Refusal> {
    let mut written = 0;
    done(cleared(|| call(out.as_mut_ptr(), out.len(), &mut written)))?;
    Ok(written.min(out.len()))
}

pub(crate) fn fresh(session: &mut SessionBytes) {
    // SAFETY: `session` is lent whole. Its size is right, so the call is not refused.
    cleared(|| unsafe { c::bindcricket_fresh(session.as_mut_ptr(), session.len()) });
}

pub(crate) fn begin(
    session: &mut SessionBytes,
    suite: u16,
    kind: u8,
    psk: &[u8],
) -> Result<(), Refusal> {
    // SAFETY: `session` and `psk` are lent whole.
    done(cleared(|| unsafe {
        c::bindcricket_begin(
            session.as_mut_ptr(),
            session.len(),
            suite,
            kind,
            psk.as_ptr(),
            psk.len(),
        )
    }))
}

pub(crate) fn feed(session: &mut SessionBytes, message: &[u8]) -> Result<(), Refusal> {
    // SAFETY: `session` and `message` are lent whole.
    done(cleared(|| unsafe {
        c::bindcricket_feed(
            session.as_mut_ptr(),
            session.len(),
            message.as_ptr(),
            message.len(),
        )
    }))
}

pub(crate) fn early(session: &mut SessionBytes) -> Result<(), Refusal> {
    // SAFETY: `session` is lent whole.
    done(cleared(|| unsafe {
        c::bindcricket_early(session.as_mut_ptr(), session.len())
    }))
}

pub(crate) fn handshake(
    session: &mut SessionBytes,
    group: u16,
    secret: &[u8],
) -> Result<(), Refusal> {
    // SAFETY: `session` and `secret` are lent whole.
    done(cleared(|| unsafe {
        c::bindcricket_handshake(
            session.as_mut_ptr(),
            session.len(),
            group,
            secret.as_ptr(),
            secret.len(),
        )
    }))
}

pub(crate) fn application(session: &mut SessionBytes) -> Result<(), Refusal> {
    // SAFETY: `session` is lent whole.
    done(cleared(|| unsafe {
        c::bindcricket_application(session.as_mut_ptr(), session.len())
    }))
}

pub(crate) fn complete(session: &mut SessionBytes) -> Result<(), Refusal> {
    // SAFETY: `session` is lent whole.
    done(cleared(|| unsafe {
        c::bindcricket_complete(session.as_mut_ptr(), session.len())
    }))
}

pub(crate) fn update(session: &mut SessionBytes, side: u8) -> Result<(), Refusal> {
    // SAFETY: `session` is lent whole.
    done(cleared(|| unsafe {
        c::bindcricket_update(session.as_mut_ptr(), session.len(), side)
    }))
}

pub(crate) fn close(session: &mut SessionBytes) {
    // SAFETY: `session` is lent whole. Its size is right, so the call is not refused.
    cleared(|| unsafe { c::bindcricket_close(session.as_mut_ptr(), session.len()) });
}

pub(crate) fn keys(session: &SessionBytes, name: u8, out: &mut [u8]) -> Result<usize, Refusal> {
    // SAFETY: `session` and `out` are lent whole.
    writing(out, |out, out_size, written| unsafe {
        c::bindcricket_keys(
            session.as_ptr(),
            session.len(),
            name,
            out,
            out_size,
            written,
        )
    })
}

pub(crate) fn finished(session: &SessionBytes, side: u8, out: &mut [u8]) -> Result<usize, Refusal> {
    // SAFETY: `session` and `out` are lent whole.
    writing(out, |out, out_size, written| unsafe {
        c::bindcricket_finished(
            session.as_ptr(),
            session.len(),
            side,
            out,
            out_size,
            written,
        )
    })
}

pub(crate) fn check(session: &SessionBytes, side: u8, received: &[u8]) -> Result<bool, Refusal> {
    let mut yes = 0;
    // SAFETY: `session` and `received` are lent whole, and `yes` is one byte.
    done(cleared(|| unsafe {
        c::bindcricket_check(
            session.as_ptr(),
            session.len(),
            side,
            received.as_ptr(),
            received.len(),
            &mut yes,
        )
    }))?;
    Ok(yes == 1)
}

pub(crate) fn binder(
    session: &SessionBytes,
    hello: &[u8],
    out: &mut [u8],
) -> Result<usize, Refusal> {
    // SAFETY: `session`, `hello` and `out` are lent whole.
    writing(out, |out, out_size, written| unsafe {
        c::bindcricket_binder(
            session.as_ptr(),
            session.len(),
            hello.as_ptr(),
            hello.len(),
            out,
            out_size,
            written,
        )
    })
}

pub(crate) fn export(
    session: &SessionBytes,
    name: u8,
    label: &[u8],
    context: &[u8],
    length: usize,
    out: &mut [u8],
) -> Result<usize, Refusal> {
    // SAFETY: `session`, `label`, `context` and `out` are lent whole.
    writing(out, |out, out_size, written| unsafe {
        c::bindcricket_export(
            session.as_ptr(),
            session.len(),
            name,
            label.as_ptr(),
            label.len(),
            context.as_ptr(),
            context.len(),
            length,
            out,
            out_size,
            written,
        )
    })
}

pub(crate) fn hash(suite: u16, input: &[u8], out: &mut [u8]) -> Result<usize, Refusal> {
    // SAFETY: `input` and `out` are lent whole.
    writing(out, |out, out_size, written| unsafe {
        c::bindcricket_hash(suite, input.as_ptr(), input.len(), out, out_size, written)
    })
}

pub(crate) fn hmac(
    suite: u16,
    key: &[u8],
    message: &[u8],
    out: &mut [u8],
) -> Result<usize, Refusal> {
    // SAFETY: `key`, `message` and `out` are lent whole.
    writing(out, |out, out_size, written| unsafe {
        c::bindcricket_hmac(
            suite,
            key.as_ptr(),
            key.len(),
            message.as_ptr(),
            message.len(),
            out,
            out_size,
            written,
        )
    })
}

pub(crate) fn extract(
    suite: u16,
    salt: &[u8],
    input: &[u8],
    out: &mut [u8],
) -> Result<usize, Refusal> {
    // SAFETY: `salt`, `input` and `out` are lent whole.
    writing(out, |out, out_size, written| unsafe {
        c::bindcricket_extract(
            suite,
            salt.as_ptr(),
            salt.len(),
            input.as_ptr(),
            input.len(),
            out,
            out_size,
            written,
        )
    })
}

pub(crate) fn expand(
    suite: u16,
    secret: &[u8],
    info: &[u8],
    length: usize,
    out: &mut [u8],
) -> Result<usize, Refusal> {
    // SAFETY: `secret`, `info` and `out` are lent whole.
    writing(out, |out, out_size, written| unsafe {
        c::bindcricket_expand(
            suite,
            secret.as_ptr(),
            secret.len(),
            info.as_ptr(),
            info.len(),
            length,
            out,
            out_size,
            written,
        )
    })
}

pub(crate) fn expand_label(
    suite: u16,
    secret: &[u8],
    label: &[u8],
    context: &[u8],
    length: usize,
    out: &mut [u8],
) -> Result<usize, Refusal> {
    // SAFETY: `secret`, `label`, `context` and `out` are lent whole.
    writing(out, |out, out_size, written| unsafe {
        c::bindcricket_expand_label(
            suite,
            secret.as_ptr(),
            secret.len(),
            label.as_ptr(),
            label.len(),
            context.as_ptr(),
            context.len(),
            length,
            out,
            out_size,
            written,
        )
    })
}

pub(crate) fn derive_secret(
    suite: u16,
    secret: &[u8],
    label: &[u8],
    messages: &[u8],
    out: &mut [u8],
) -> Result<usize, Refusal> {
    // SAFETY: `secret`, `label`, `messages` and `out` are lent whole.
    writing(out, |out, out_size, written| unsafe {
        c::bindcricket_derive_secret(
            suite,
            secret.as_ptr(),
            secret.len(),
            label.as_ptr(),
            label.len(),
            messages.as_ptr(),
            messages.len(),
            out,
            out_size,
            written,
        )
    })
}

pub(crate) fn journal_write(
    kind: u16,
    number: u16,
    small: u8,
    body: &[u8],
    out: &mut [u8],
) -> Result<usize, Refusal> {
    // SAFETY: `body` and `out` are lent whole.
    writing(out, |out, out_size, written| unsafe {
        c::bindcricket_journal_write(
            kind,
            number,
            small,
            body.as_ptr(),
            body.len(),
            out,
            out_size,
            written,
        )
    })
}

/// Gives the kind of the record at a place, its payload and the place of the next; kind 0 where the
/// journal has ended.
pub(crate) fn journal_read(journal: &[u8], place: usize) -> Result<(u16, &[u8], usize), Refusal> {
    let (mut kind, mut start, mut size, mut next) = (0, 0, 0, 0);
    // SAFETY: `journal` is lent whole, and each of the others is one number.
    done(cleared(|| unsafe {
        c::bindcricket_journal_read(
            journal.as_ptr(),
            journal.len(),
            place,
            &mut kind,
            &mut start,
            &mut size,
            &mut next,
        )
    }))?;
    Ok((kind, &journal[start..][..size], next))
}
