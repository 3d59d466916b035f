//! What is dropped leaves no secret in the memory that it lay in: an allocator looks at a block
//! before it is freed.

mod steps;

use bindcricket::{KeyName, Refusal, Side, Suite};
use std::alloc::{GlobalAlloc, Layout, System};
use std::cell::Cell;
use std::hint::black_box;
use std::slice;
use steps::{reach, At, EXTERNAL};

struct Watching;

thread_local! {
    /// The layout to look for.
    static WATCHED: Cell<Option<Layout>> = const { Cell::new(None) };
    /// How many bytes were not zero in the last block of that layout.
    static LEFT: Cell<Option<usize>> = const { Cell::new(None) };
}

// SAFETY: all is done by the system's allocator.
unsafe impl GlobalAlloc for Watching {
    unsafe fn alloc(&self, layout: Layout) -> *mut u8 {
        // SAFETY: as the caller promises.
        unsafe { System.alloc(layout) }
    }

    unsafe fn dealloc(&self, block: *mut u8, layout: Layout) {
        if WATCHED.get() == Some(layout) {
            // SAFETY: the block is not freed yet, and the value that is being dropped initialized
            // it whole.
            let bytes = unsafe { slice::from_raw_parts(block, layout.size()) };
            LEFT.set(Some(bytes.iter().filter(|byte| **byte != 0).count()));
        }
        // SAFETY: as the caller promises.
        unsafe { System.dealloc(block, layout) }
    }
}

#[global_allocator]
static ALLOCATOR: Watching = Watching;

/// Drops a value that keeps its bytes in a box of `N`, and gives the number of bytes in it that are
/// not zero then.
fn left_of<const N: usize>(value: impl Sized) -> usize {
    LEFT.set(None);
    WATCHED.set(Some(Layout::new::<[u8; N]>()));
    drop(value);
    WATCHED.set(None);
    LEFT.get().expect("the block is freed")
}

/// The one byte that is left is the point, Closed.
#[test]
fn session() {
    for suite in Suite::ALL {
        for at in At::ALL {
            assert_eq!(left_of::<696>(reach(at, suite, EXTERNAL)), 1, "{at:?}");
        }
    }
}

#[test]
fn values() -> Result<(), Refusal> {
    let session = reach(At::Handshake, Suite::Aes256GcmSha384, EXTERNAL);
    let keys = session.keys(KeyName::ClientHandshake)?;
    assert_ne!(keys.key(), [0; 32]);
    assert_eq!(left_of::<44>(keys), 0);
    let finished = session.finished(Side::Server)?;
    assert_ne!(*finished, [0; 48]);
    assert_eq!(left_of::<48>(finished), 0);
    Ok(())
}

/// A block that is not wiped is seen.
#[test]
fn control() {
    assert_eq!(left_of::<48>(black_box(Box::new([7u8; 48]))), 48);
}
