//! A walk whose steps may be refused: what ranges and frames have in common.

use crate::refusal::Result;

/// Where a walk stands. Its refusal, also that of its start, is an item once, and the last one.
#[derive(Clone, Copy, Debug)]
pub(crate) struct Walk<Cursor> {
    place: Result<Cursor>,
    /// Whether the refusal was given.
    told: bool,
}

impl<Cursor: Copy> Walk<Cursor> {
    #[inline]
    pub(crate) fn new(place: Result<Cursor>) -> Self {
        Walk { place, told: false }
    }

    /// Where it stands, or what it was refused with.
    #[inline]
    pub(crate) fn place(&self) -> Result<Cursor> {
        self.place
    }

    /// The next item. A step gives one, or none at the end, and the cursor after it.
    #[inline]
    pub(crate) fn next<Item>(
        &mut self,
        step: impl FnOnce(Cursor) -> Result<(Option<Item>, Cursor)>,
    ) -> Option<Result<Item>> {
        let refusal = match self.place {
            Ok(cursor) => match step(cursor) {
                Ok((item, after)) => {
                    self.place = Ok(after);
                    return item.map(Ok);
                }
                Err(refusal) => refusal,
            },
            Err(refusal) => refusal,
        };
        // Written out here: a call that took `self` would keep every caller's walk in memory.
        self.place = Err(refusal);
        match core::mem::replace(&mut self.told, true) {
            false => Some(Err(refusal)),
            true => None,
        }
    }
}

impl<Cursor: Copy + Default> Default for Walk<Cursor> {
    fn default() -> Self {
        Walk::new(Ok(Cursor::default()))
    }
}

#[cfg(test)]
mod tests {
    use super::*;
    use crate::refusal::Refusal;

    /// Up to `end`, and refused at 7.
    fn next(walk: &mut Walk<u8>, end: u8) -> Option<Result<u8>> {
        walk.next(|at| match at {
            7 => Err(Refusal::Early),
            _ if at < end => Ok((Some(at), at + 1)),
            _ => Ok((None, at)),
        })
    }

    #[test]
    fn a_refused_start_is_told_once() {
        let mut walk = Walk::new(Err(Refusal::Order));
        assert_eq!(next(&mut walk, 9), Some(Err(Refusal::Order)));
        assert_eq!(next(&mut walk, 9), None);
        assert_eq!(walk.place(), Err(Refusal::Order));
    }

    #[test]
    fn a_refused_step_is_told_once() {
        let mut walk = Walk::new(Ok(6));
        assert_eq!(next(&mut walk, 9), Some(Ok(6)));
        assert_eq!(walk.place(), Ok(7));
        assert_eq!(next(&mut walk, 9), Some(Err(Refusal::Early)));
        assert_eq!(next(&mut walk, 9), None);
        assert_eq!(next(&mut walk, 9), None);
        assert_eq!(walk.place(), Err(Refusal::Early));
    }

    #[test]
    fn the_end_stays_the_end() {
        let mut walk = Walk::new(Ok(4));
        assert_eq!(next(&mut walk, 5), Some(Ok(4)));
        assert_eq!(next(&mut walk, 5), None);
        assert_eq!(next(&mut walk, 5), None);
        assert_eq!(walk.place(), Ok(5));
    }
}
