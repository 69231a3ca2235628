//! Why a call is refused: names for the numbers of the C entries.
use core::fmt;

/// Why a call is refused. The numbers are tried in the order 1, 2, 7, 3, 5, each over all blocks from left to right before
/// the next.
#[derive(Clone, Copy, Debug, PartialEq, Eq, Hash)]
#[non_exhaustive]
pub enum Refusal {
    /// 1: a block is not [`ELEMENT_BYTES`](crate::ELEMENT_BYTES) bytes, or a chain is not whole blocks or has more than
    /// [`CHAIN_MOST`](crate::CHAIN_MOST).
    Length,
    /// 2: a value is a NaN or infinite, or the computed norm of a quaternion is.
    NotFinite,
    /// 3: the computed norm of a quaternion is further from 1 than the tolerance, which is 1e-6 where the call takes none.
    NotUnit,
    /// 4: an angle is too large. No call of this crate answers it.
    Turn,
    /// 5: a value of the answer, or of a partial element of a chain, is not finite.
    Overflow,
    /// 7: the tolerance is not finite, not above 0, or above 1/1024, which is 0.0009765625. It is tried also where a chain is
    /// empty.
    Tolerance,
    /// A number that this version of the crate has no name for.
    Other(u32),
}

impl Refusal {
    pub(crate) fn of(number: u32) -> Refusal {
        match number {
            1 => Refusal::Length,
            2 => Refusal::NotFinite,
            3 => Refusal::NotUnit,
            4 => Refusal::Turn,
            5 => Refusal::Overflow,
            7 => Refusal::Tolerance,
            _ => Refusal::Other(number),
        }
    }

    /// The number that the C entry returned.
    pub fn number(self) -> u32 {
        match self {
            Refusal::Length => 1,
            Refusal::NotFinite => 2,
            Refusal::NotUnit => 3,
            Refusal::Turn => 4,
            Refusal::Overflow => 5,
            Refusal::Tolerance => 7,
            Refusal::Other(number) => number,
        }
    }
}

impl fmt::Display for Refusal {
    fn fmt(&self, f: &mut fmt::Formatter) -> fmt::Result {
        let reason = match self {
            Refusal::Length => "wrong length",
            Refusal::NotFinite => "not finite",
            Refusal::NotUnit => "quaternion not unit",
            Refusal::Turn => "turn too large",
            Refusal::Overflow => "overflow",
            Refusal::Tolerance => "tolerance not permitted",
            Refusal::Other(_) => "unknown reason",
        };
        write!(f, "refused {}: {reason}", self.number())
    }
}

impl core::error::Error for Refusal {}

#[cfg(test)]
mod tests {
    use super::Refusal;

    #[test]
    fn every_number_is_kept() {
        for number in [1, 2, 3, 4, 5, 6, 7, 8, u32::MAX] {
            assert_eq!(Refusal::of(number).number(), number);
        }
    }
}
