//! The refusals, and answers of the face as results.

use core::fmt;

/// Why a question was not answered. A hole in a table is no refusal: it is `Ok(None)`.
///
/// ```
/// use gillacorn::Refusal;
///
/// let refusal = Refusal::Short { needed: 3 };
/// assert_eq!(refusal.number(), 5);
/// assert_eq!(refusal.to_string(), "the output is too small: room for 3 is needed");
/// ```
#[derive(Clone, Copy, Debug, Eq, Hash, PartialEq)]
#[non_exhaustive]
pub enum Refusal {
    /// 1: a table's length is no multiple of its record.
    Length,
    /// 2: a table has more records than allowed.
    Count,
    /// 3: the question needs order, and a source or code start is not greater than the one before.
    Order,
    /// 4: a sum or product exceeds 32 bits.
    TooLarge,
    /// 5: the result has more entries, or bytes where it is bytes, than the lent output holds.
    Short {
        /// How many of them the result has.
        needed: usize,
    },
    /// 6: a cursor would translate a mapped, non-empty piece that begins before its record's source.
    Early,
    /// 8: a file has fewer than 56 bytes or does not end in `BACK`.
    NotABundle,
    /// 9: the version of a bundle is not 1.
    OtherVersion,
    /// 10: the parts of a bundle do not touch each other from its first byte to its trailer, or one
    /// is half absent.
    Layout,
    /// A number that this crate has no name for: the archive is newer than the crate.
    Other {
        /// The number.
        number: u32,
    },
}

/// What a question gives, or its [`Refusal`].
pub type Result<T> = core::result::Result<T, Refusal>;

impl Refusal {
    /// The refusal's number, by which every desk knows it.
    pub fn number(self) -> u32 {
        match self {
            Refusal::Length => 1,
            Refusal::Count => 2,
            Refusal::Order => 3,
            Refusal::TooLarge => 4,
            Refusal::Short { .. } => 5,
            Refusal::Early => 6,
            Refusal::NotABundle => 8,
            Refusal::OtherVersion => 9,
            Refusal::Layout => 10,
            Refusal::Other { number } => number,
        }
    }
}

impl fmt::Display for Refusal {
    fn fmt(&self, f: &mut fmt::Formatter<'_>) -> fmt::Result {
        f.write_str(match self {
            Refusal::Length => "the table's length is no multiple of its record",
            Refusal::Count => "the table has more records than allowed",
            Refusal::Order => "the table is out of order",
            Refusal::TooLarge => "a sum or product exceeds 32 bits",
            Refusal::Short { needed } => {
                return write!(f, "the output is too small: room for {needed} is needed")
            }
            Refusal::Early => "a piece begins before the source of its record",
            Refusal::NotABundle => {
                "this is no bundle: it has fewer than 56 bytes or does not end in BACK"
            }
            Refusal::OtherVersion => "the bundle has another version than 1",
            Refusal::Layout => "the parts of the bundle break its layout",
            Refusal::Other { number } => {
                return write!(
                    f,
                    "a reason that this version has no words for, number {number}"
                )
            }
        })
    }
}

#[cfg(feature = "std")]
impl std::error::Error for Refusal {}

/// An answer's code: 0 with a value, 255 with none, else a refusal. `needed` is the number that
/// comes with refusal 5.
#[inline]
pub(crate) fn answer<T>(code: u32, needed: usize, value: T) -> Result<Option<T>> {
    match code {
        0 => Ok(Some(value)),
        255 => Ok(None),
        _ => Err(refusal(code, needed)),
    }
}

/// As [`answer`], for a question that always has a value or a refusal.
#[inline]
pub(crate) fn value<T>(code: u32, needed: usize, value: T) -> Result<T> {
    match code {
        0 => Ok(value),
        _ => Err(refusal(code, needed)),
    }
}

// Always in its caller: from a call the refusal would come back in memory, and with it every walk.
#[inline(always)]
fn refusal(code: u32, needed: usize) -> Refusal {
    match code {
        1 => Refusal::Length,
        2 => Refusal::Count,
        3 => Refusal::Order,
        4 => Refusal::TooLarge,
        5 => Refusal::Short { needed },
        6 => Refusal::Early,
        8 => Refusal::NotABundle,
        9 => Refusal::OtherVersion,
        10 => Refusal::Layout,
        number => Refusal::Other { number },
    }
}

#[cfg(test)]
mod tests {
    use super::*;

    #[test]
    fn every_code_is_an_answer() {
        assert_eq!(answer(0, 0, 'v'), Ok(Some('v')));
        assert_eq!(answer(255, 0, 'v'), Ok(None));
        for number in (1..255).chain([256, u32::MAX]) {
            let refusal = answer(number, 9, 'v').unwrap_err();
            assert_eq!(refusal.number(), number);
            assert_eq!(value(number, 9, 'v'), Err(refusal));
            assert_eq!(
                matches!(number, 7 | 11..),
                matches!(refusal, Refusal::Other { .. }),
                "{refusal}"
            );
        }
        assert_eq!(value(0, 0, 'v'), Ok('v'));
        assert_eq!(value(255, 0, 'v'), Err(Refusal::Other { number: 255 }));
        assert_eq!(value(5, 9, 'v'), Err(Refusal::Short { needed: 9 }));
    }
}
