//! The session calls of a monitor that has loaded a role file, and the buffers it is lent.

pub use monitor_tests::library::Figure;

use crate::plain::STATE;
use crate::review::Review;
use std::hint::black_box;

/// The bytes of a store of 512 cards.
pub const STORE: usize = 64 * 512;

/// What each version of the monitor answers. Numbers are those of the C interface.
pub trait Monitor: Review {
    fn open(&mut self, place: u64, user: u64, label: u64) -> u64;
    fn close(&mut self, place: u64) -> u64;
    fn take(&mut self, place: u64, role: u64) -> u64;
    fn drop(&mut self, place: u64, role: u64) -> u64;
    fn read_number(&self, place: u64, card: u64, offset: u64, length: u64) -> u64;
    fn write(&mut self, place: u64, card: u64, offset: u64, bytes: &[u8]) -> u64;
    fn flows(&self, from: u64, to: u64) -> Figure;
    fn circle(&self) -> Figure;
}

/// A state and a store, at the start of a page: how they lie is the same for every version.
#[repr(align(4096))]
pub struct Buffers {
    pub state: [u8; STATE],
    pub store: [u8; STORE],
}

impl Buffers {
    pub fn zeroed() -> Box<Buffers> {
        Box::new(Buffers {
            state: [0; STATE],
            store: [0; STORE],
        })
    }

    /// Lends both, with lengths that the compiler cannot know.
    pub fn lend(&mut self) -> Lent<'_> {
        Lent {
            state: black_box(&mut self.state),
            store: black_box(&mut self.store),
        }
    }
}

/// A state and a store as a server lends them.
pub struct Lent<'b> {
    pub state: &'b mut [u8],
    pub store: &'b mut [u8],
}
