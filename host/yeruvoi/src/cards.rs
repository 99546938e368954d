//! Sets of cards.

use crate::bits;

/// The most cards that a file has, in words of 64.
const WORDS: usize = 512 / 64;

/// A set of the cards 1 to 512.
#[derive(Clone, Copy, Debug, Default, PartialEq, Eq)]
pub struct Cards([u64; WORDS]);

impl Cards {
    /// The cards 1 to `count`.
    pub fn first(count: u64) -> Cards {
        Cards([u64::MAX; WORDS]).filtered(|card| card <= count)
    }

    /// The cards of this set of which the question is answered with yes.
    pub fn filtered(&self, so: impl Fn(u64) -> bool) -> Cards {
        let filtered = |word: usize| {
            let mut left = self.0[word];
            let mut kept = 0;
            while left != 0 {
                let place = u64::from(left.trailing_zeros());
                kept |= u64::from(so(64 * word as u64 + place + 1)) << place;
                left &= left - 1;
            }
            kept
        };
        Cards(std::array::from_fn(filtered))
    }

    pub fn holds(&self, card: u64) -> bool {
        let place = (card - 1) as usize;
        self.0[place / 64] >> (place % 64) & 1 == 1
    }

    pub fn is_empty(&self) -> bool {
        *self == Cards::default()
    }

    /// Whether a card is in both sets.
    pub fn meets(&self, other: &Cards) -> bool {
        self.0.iter().zip(&other.0).any(|(a, b)| a & b != 0)
    }

    /// The cards of either set.
    pub fn joined(&self, other: &Cards) -> Cards {
        Cards(std::array::from_fn(|word| self.0[word] | other.0[word]))
    }

    /// The cards of this set that the other has not.
    pub fn without(&self, other: &Cards) -> Cards {
        Cards(std::array::from_fn(|word| self.0[word] & !other.0[word]))
    }

    /// The cards, rising.
    pub fn numbers(&self) -> Vec<u64> {
        let count: u32 = self.0.iter().map(|word| word.count_ones()).sum();
        let mut numbers = Vec::with_capacity(count as usize);
        for (&word, place) in self.0.iter().zip(0..) {
            let in_word = bits::numbers(word.into());
            numbers.extend(in_word.map(|number| 64 * place + number));
        }
        numbers
    }
}
