//! Sets of numbers as bits: number n is bit n - 1.

/// The numbers of a set, rising.
pub fn numbers(mut set: u128) -> impl Iterator<Item = u64> {
    std::iter::from_fn(move || {
        let place = set.trailing_zeros();
        set &= set.checked_sub(1)?;
        Some(u64::from(place) + 1)
    })
}

#[cfg(test)]
mod tests {
    use super::*;

    #[test]
    fn the_ends_and_the_middle() {
        let set = 1 | 1 << 63 | 1 << 64 | 1 << 127;
        assert_eq!(numbers(set).collect::<Vec<u64>>(), [1, 64, 65, 128]);
        assert_eq!(numbers(0).next(), None);
    }
}
