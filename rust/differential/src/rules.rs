//! The documents' rules, stated once more in plain Rust: the judge where the Rust crate is none, that
//! is, for every refusal and outside the domain of equality. Nothing here is taken from the wrapper
//! or from pdb; sums are in 64 bits, searches walk.

mod sections;

pub use self::sections::{extents_fit, name, section_offset, sizes, virtual_address, By, Sizes};

/// A value, none, or the number of a refusal.
pub type Answer<T> = Result<Option<T>, u32>;

/// A kind of table: bytes in a record, and the most records.
#[derive(Clone, Copy)]
pub struct Kind {
    pub width: usize,
    pub most: usize,
}

pub const OMAP: Kind = Kind {
    width: 8,
    most: 1_048_576,
};
pub const SECTIONS: Kind = Kind {
    width: 40,
    most: 65_535,
};
pub const OLD: Kind = Kind {
    width: 16,
    most: 1_048_576,
};
pub const NEW: Kind = Kind {
    width: 32,
    most: 1_048_576,
};

impl Kind {
    /// The number of records; refusals 1 and 2.
    pub fn count(self, table: &[u8]) -> Result<usize, u32> {
        match (table.len() % self.width, table.len() / self.width) {
            (0, count) if count <= self.most => Ok(count),
            (0, _) => Err(2),
            _ => Err(1),
        }
    }

    /// The same where the first field of each record has to rise; refusals 1, 2 and 3.
    pub fn ordered(self, table: &[u8]) -> Result<usize, u32> {
        let count = self.count(table)?;
        let first = |place: usize| u32_at(table, place * self.width);
        if (1..count).any(|place| first(place) <= first(place - 1)) {
            return Err(3);
        }
        Ok(count)
    }
}

pub fn u32_at(bytes: &[u8], at: usize) -> u32 {
    (0..4)
        .rev()
        .fold(0, |n, i| n << 8 | u32::from(bytes[at + i]))
}

/// A sum that fits 32 bits, or refusal 4.
fn fits(sum: u64) -> Result<u32, u32> {
    u32::try_from(sum).map_err(|_| 4)
}

// ---- OMAP

/// The records of a table, as numbers wide enough for every sum.
pub fn records(table: &[u8]) -> impl Iterator<Item = (u64, u64)> + '_ {
    let pair = |r: &[u8]| (u64::from(u32_at(r, 0)), u64::from(u32_at(r, 4)));
    table.chunks_exact(OMAP.width).map(pair)
}

pub fn record(table: &[u8], place: usize) -> Answer<(u32, u32)> {
    let count = OMAP.count(table)?;
    let at = |offset| u32_at(table, place * OMAP.width + offset);
    Ok((place < count).then(|| (at(0), at(4))))
}

/// The translation of an address by a table in order, which may not fit 32 bits.
pub fn translation(table: &[u8], address: u32) -> Option<u64> {
    let address = u64::from(address);
    let owner = records(table).take_while(|r| r.0 <= address).last()?;
    (owner.1 != 0).then(|| address - owner.0 + owner.1)
}

pub fn lookup(table: Option<&[u8]>, address: u32) -> Answer<u32> {
    let table = match table {
        Some(table) => table,
        None => return Ok(Some(address)),
    };
    OMAP.ordered(table)?;
    translation(table, address).map(fits).transpose()
}

/// What a quick lookup gives.
#[derive(Clone, Copy, Debug, Eq, PartialEq)]
pub struct Quick {
    pub target: Option<u32>,
    pub probes: u32,
}

/// The lookup by the steps of a search alone, on any table.
pub fn quick_lookup(table: Option<&[u8]>, address: u32) -> Result<Quick, u32> {
    let table = match table {
        Some(table) => table,
        None => {
            return Ok(Quick {
                target: Some(address),
                probes: 0,
            })
        }
    };
    OMAP.count(table)?;
    let (place, probes) = steps(table, address);
    let before = place.checked_sub(1).map(|place| record(table, place));
    let target = match before.transpose()?.flatten() {
        Some((source, target)) if target != 0 => {
            let into = u64::from(address) - u64::from(source);
            Some(fits(into + u64::from(target))?)
        }
        _ => None,
    };
    Ok(Quick { target, probes })
}

/// A search in a run of records: where it ends, counted from the run's first, and how many it probes.
fn steps(run: &[u8], address: u32) -> (usize, u32) {
    let count = run.len() / OMAP.width;
    if count == 0 {
        return (0, 0);
    }
    let (before, rest) = run.split_at(OMAP.width * (count / 2));
    let (probed, after) = rest.split_at(OMAP.width);
    if u32_at(probed, 0) <= address {
        let (place, probes) = steps(after, address);
        (count / 2 + 1 + place, 1 + probes)
    } else {
        let (place, probes) = steps(before, address);
        (place, 1 + probes)
    }
}

/// The pieces of a window.
pub fn pieces(table: Option<&[u8]>, a: u32, b: u32) -> Result<Vec<(u32, u32)>, u32> {
    let table = match table {
        Some(table) => table,
        None if a < b && a != 0 => return Ok(vec![(a, b)]),
        None => return Ok(vec![]),
    };
    OMAP.ordered(table)?;
    let (a, b) = (u64::from(a), u64::from(b));
    let ends = records(table).skip(1).map(|r| r.0).chain([1 << 32]);
    let mut pieces = Vec::new();
    for ((source, target), end) in records(table).zip(ends) {
        let (start, end) = (source.max(a), end.min(b));
        if start < end && target != 0 {
            let shown = |address: u64| fits(address - source + target);
            // The end is the larger of the two.
            let end = shown(end)?;
            pieces.push((shown(start)?, end));
        }
    }
    Ok(pieces)
}

/// A cursor: address, end, source, target, and the place of the next record.
#[derive(Clone, Copy, Debug, Default, Eq, PartialEq)]
pub struct Cursor {
    pub fields: [u32; 4],
    pub place: usize,
}

pub fn start(table: Option<&[u8]>, a: u32, b: u32) -> Result<Cursor, u32> {
    let table = match table {
        Some(table) => table,
        None => {
            return Ok(Cursor {
                fields: [a, b, a, a],
                place: 0,
            })
        }
    };
    let count = OMAP.ordered(table)?;
    if b <= a {
        return Ok(Cursor {
            fields: [0; 4],
            place: count,
        });
    }
    let place = records(table).take_while(|r| r.0 <= u64::from(a)).count();
    let (source, target) = match place {
        0 => (0, 0),
        _ => record(table, place - 1)?.unwrap(),
    };
    Ok(Cursor {
        fields: [a, b, source, target],
        place,
    })
}

/// A step: a piece or done, and the cursor after it.
pub fn step(table: Option<&[u8]>, cursor: Cursor) -> Result<(Option<(u32, u32)>, Cursor), u32> {
    let table = table.unwrap_or(&[]);
    let count = OMAP.count(table)?;
    let mut now = cursor;
    loop {
        let [address, end, source, target] = now.fields;
        if end <= address {
            return Ok((None, now));
        }
        let next = record(table, now.place)?.unwrap_or((end, 0));
        let piece_end = next.0.min(end);
        now.fields = [piece_end, end, next.0, next.1];
        if now.place < count {
            now.place += 1;
        }
        if address < piece_end && target != 0 {
            if address < source {
                return Err(6);
            }
            let shown = |n: u32| fits(u64::from(n - source) + u64::from(target));
            return Ok((Some((shown(address)?, shown(piece_end)?)), now));
        }
    }
}

// ---- frames

/// Whether every record's start and size add up within 32 bits: the domain of equality.
pub fn blocks_fit(kind: Kind, table: &[u8]) -> bool {
    let mut records = table.chunks_exact(kind.width);
    records.all(|r| u32_at(r, 0).checked_add(u32_at(r, 4)).is_some())
}

/// Where an iteration that starts at an address begins in one table.
pub fn frame_place(kind: Kind, table: &[u8], address: u32) -> Result<usize, u32> {
    kind.ordered(table)?;
    let records = || table.chunks_exact(kind.width);
    let after = records().take_while(|r| u32_at(r, 0) <= address).count();
    Ok(match after {
        0 => 0,
        _ => {
            let before = records().nth(after - 1).unwrap();
            let (start, size) = (u32_at(before, 0), u32_at(before, 4));
            if start == address || address - start < size {
                after - 1
            } else {
                after
            }
        }
    })
}

/// Which tables a step of the merged iteration takes from.
#[derive(Clone, Copy, Debug, Eq, PartialEq)]
pub enum Taken {
    Old,
    New,
    Both,
    End,
}

/// What a step takes; refusals 1 and 2 of old, then of new, and 4 of the frame that is taken.
pub fn taken(old: &[u8], new: &[u8], old_index: usize, new_index: usize) -> Result<Taken, u32> {
    let old_left = old_index < OLD.count(old)?;
    let new_left = new_index < NEW.count(new)?;
    let taken = match (old_left, new_left) {
        (false, false) => Taken::End,
        (true, false) => Taken::Old,
        (false, true) => Taken::New,
        (true, true) => {
            let old_start = u32_at(old, old_index * OLD.width);
            let new_start = u32_at(new, new_index * NEW.width);
            match new_start.cmp(&old_start) {
                std::cmp::Ordering::Less => Taken::New,
                std::cmp::Ordering::Equal => Taken::Both,
                std::cmp::Ordering::Greater => Taken::Old,
            }
        }
    };
    if taken == Taken::Old {
        locals_fit(old, old_index)?;
    }
    Ok(taken)
}

/// Refusal 4: the locals of an old frame, times 4.
pub fn locals_fit(old: &[u8], place: usize) -> Result<u32, u32> {
    fits(4 * u64::from(u32_at(old, place * OLD.width + 8)))
}
