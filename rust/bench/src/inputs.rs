//! Tables of a given size, in order, and addresses spread over them.

pub const MOST: usize = 1_048_576;
/// The three sizes of OMAP and frame tables, in records, and those of section tables.
pub const SIZES: [usize; 3] = [1, 1_000, MOST];
pub const HEADERS: [usize; 3] = [5, 96, 65_535];
/// The size of a section in memory, and of its raw data.
pub const SECTION: u32 = 0x1000;

fn put(record: &mut [u8], at: usize, number: u32) {
    record[at..at + 4].copy_from_slice(&number.to_le_bytes());
}

fn table(width: usize, records: usize, fill: impl Fn(u32, &mut [u8])) -> Vec<u8> {
    let mut table = vec![0; width * records];
    for (place, record) in table.chunks_exact_mut(width).enumerate() {
        fill(place as u32, record);
    }
    table
}

/// Where the first record of an OMAP begins, and how far apart they are.
const FIRST: u32 = 0x100;
const APART: u32 = 16;

/// Records moved about under an end; one in eight is a hole, but not the first.
pub fn omap(records: usize, end: u32) -> Vec<u8> {
    table(8, records, |place, record| {
        put(record, 0, FIRST + place * APART);
        let moved = (place.wrapping_mul(0x9e37_79b1) >> 6) % (end - 1);
        put(record, 4, if place % 8 == 5 { 0 } else { 1 + moved });
    })
}

/// An end of targets that keeps sums far below 32 bits.
pub const FAR: u32 = 1 << 26;

/// The addresses that the records of an OMAP own, and as many again of the last one.
pub fn omap_window(records: usize) -> std::ops::Range<u32> {
    FIRST..FIRST + APART * records as u32
}

/// A window that is single: pieces that touch in no target, in an order far from their sources'.
pub fn apart(pieces: usize) -> Vec<u8> {
    let mut table = table(8, pieces + 1, |place, record| {
        put(record, 0, 1 + place * 16);
        // 7919 is prime to each of the sizes: every place once.
        let moved = (u64::from(place) * 7919 % pieces as u64) as u32;
        put(record, 4, 0x1000 + moved * 16);
    });
    // The last record would reach to the end of 32 bits.
    put(&mut table, 8 * pieces + 4, 0);
    table
}

pub fn sections(headers: usize, name: &[u8]) -> Vec<u8> {
    table(40, headers, |place, record| {
        record[..name.len()].copy_from_slice(name);
        put(record, 8, SECTION);
        put(record, 12, place * SECTION);
        put(record, 16, SECTION);
        put(record, 36, 0x6050_0020 ^ place << 8);
    })
}

/// Old frames (16 bytes) and new frames (32 bytes); a third of their starts are the same.
pub fn frames(width: usize, records: usize) -> Vec<u8> {
    let step = if width == 16 { 8 } else { 12 };
    table(width, records, |place, record| {
        put(record, 0, 0x1000 + place * step);
        put(record, 4, step / 2);
        put(record, 8, place % 1000);
    })
}

/// Numbers of a range, the same on each call.
pub fn numbers(count: usize, range: std::ops::Range<u32>) -> Vec<u32> {
    let mut state = 1u64;
    let next = |_| {
        state = state
            .wrapping_mul(6_364_136_223_846_793_005)
            .wrapping_add(1);
        range.start + ((state >> 32) as u32) % (range.end - range.start)
    };
    (0..count).map(next).collect()
}

/// Fewer questions where each reads a large table.
pub fn questions(records: usize) -> usize {
    if records > 10_000 {
        20
    } else {
        2_000
    }
}
