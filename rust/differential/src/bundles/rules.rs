//! Request 2's rules in plain Rust. The writer's rule is stated once; the reader's is that a file is
//! the one bundle of parts as long as its trailer says.

use std::ops::Range;

pub const PARTS: usize = 6;
pub const TRAILER: usize = 56;
const ABSENT: u32 = u32::MAX;

/// The trailer of parts that are this long, or refusal 4 where the bundle has more than 32 bits.
fn trailer(lengths: &[Option<usize>; PARTS]) -> Result<Vec<u8>, u32> {
    let fits = |number: u128| u32::try_from(number).map_err(|_| 4u32);
    let mut end = 0;
    let mut words = Vec::with_capacity(TRAILER);
    for length in lengths {
        let two = match length {
            Some(length) => {
                let start = end;
                end += *length as u128;
                // What does not fit here does not fit the whole either.
                [fits(start)?, fits(*length as u128)?]
            }
            None => [ABSENT, ABSENT],
        };
        words.extend(two);
    }
    fits(end + TRAILER as u128)?;
    words.push(1);
    let bytes = words.into_iter().flat_map(u32::to_le_bytes);
    Ok(bytes.chain(*b"BACK").collect())
}

/// The bundle, or a refusal with the number of bytes that it tells.
pub fn write(parts: &[Option<&[u8]>; PARTS], room: usize) -> Result<Vec<u8>, (u32, usize)> {
    let trailer = trailer(&parts.map(|part| part.map(<[u8]>::len)));
    let trailer = trailer.map_err(|number| (number, 0))?;
    let parts = parts.iter().flatten();
    let whole = parts.clone().map(|part| part.len()).sum::<usize>() + TRAILER;
    if room < whole {
        return Err((5, whole));
    }
    let mut file = Vec::with_capacity(whole);
    parts.for_each(|part| file.extend_from_slice(part));
    file.extend(trailer);
    Ok(file)
}

/// Where the parts of a file are, or a refusal.
pub fn read(file: &[u8]) -> Result<[Option<Range<usize>>; PARTS], u32> {
    if file.len() as u128 > u128::from(u32::MAX) {
        return Err(4);
    }
    let told = match file.len().checked_sub(TRAILER) {
        Some(start) if file.ends_with(b"BACK") => &file[start..],
        _ => return Err(8),
    };
    if told[48..52] != [1, 0, 0, 0] {
        return Err(9);
    }
    let length = |number: usize| {
        let word = told[8 * number + 4..][..4].try_into().unwrap();
        let length = u32::from_le_bytes(word);
        (length != ABSENT).then_some(length as usize)
    };
    let lengths: [_; PARTS] = std::array::from_fn(length);
    let whole = lengths.iter().flatten().sum::<usize>() + TRAILER;
    if whole != file.len() || trailer(&lengths).as_deref() != Ok(told) {
        return Err(10);
    }
    let mut end = 0;
    Ok(lengths.map(|length| {
        length.map(|length| {
            let start = end;
            end += length;
            start..end
        })
    }))
}
