//! An entry's own life.
use std::time::Duration;

/// A life in milliseconds, as the library has it: 0 is none.
#[derive(Clone, Copy, Debug, PartialEq, Eq)]
pub(crate) struct Life(pub(crate) u32);

impl Life {
    pub(crate) const NONE: Life = Life(0);

    /// Of a caller's duration, in whole milliseconds, rounded up: at least one, and none if it is more than 32 bits hold.
    pub(crate) fn of(life: Duration) -> Life {
        Life(u32::try_from(life.as_nanos().div_ceil(1_000_000).max(1)).unwrap_or(0))
    }

    /// How long a value with this life is sure to be found, if without it that is so long.
    pub(crate) fn within(self, sure_for: u64) -> u64 {
        match self {
            Life::NONE => sure_for,
            Life(life) => sure_for.min(u64::from(life)),
        }
    }
}

#[cfg(test)]
mod tests {
    use super::Life;
    use std::time::Duration;

    #[test]
    fn a_life_is_a_millisecond_or_more_and_none_beyond_49_days() {
        let most = Duration::from_millis(u64::from(u32::MAX));
        let tick = Duration::from_nanos(1);
        let ms = Duration::from_millis(1);
        let rows = [
            (Duration::ZERO, 1),
            (tick, 1),
            (ms, 1),
            (ms + tick, 2),
            (ms * 2, 2),
            (most, u32::MAX),
            (most + tick, 0),
            (most + ms, 0),
            (Duration::MAX, 0),
        ];
        for (given, life) in rows {
            assert_eq!(Life::of(given), Life(life), "{given:?}");
        }
        assert_eq!((Life(5).within(9), Life(9).within(5), Life::NONE.within(9)), (5, 5, 9));
    }
}
