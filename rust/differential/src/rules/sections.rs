//! Sections: their names, from an address to its section, by either size, and back.

use core::str::from_utf8;

use super::{fits, u32_at, Answer, SECTIONS};

/// The size with which an address is compared. Its number is the one of a replay.
#[derive(Clone, Copy, Debug, Eq, PartialEq)]
pub enum By {
    /// virtual_size, or size_of_raw_data where that is 0: the default.
    MemorySize,
    /// size_of_raw_data, as pdb has it.
    RawSize,
}

impl By {
    pub const BOTH: [By; 2] = [By::MemorySize, By::RawSize];

    pub fn other(self) -> By {
        match self {
            By::MemorySize => By::RawSize,
            By::RawSize => By::MemorySize,
        }
    }
}

/// What a header says of where its section lies, as numbers wide enough for every sum.
#[derive(Clone, Copy)]
struct Header {
    virtual_size: u64,
    virtual_address: u64,
    size_of_raw_data: u64,
}

fn headers(table: &[u8]) -> impl Iterator<Item = Header> + '_ {
    let header = |record: &[u8]| Header {
        virtual_size: u32_at(record, 8).into(),
        virtual_address: u32_at(record, 12).into(),
        size_of_raw_data: u32_at(record, 16).into(),
    };
    table.chunks_exact(SECTIONS.width).map(header)
}

impl Header {
    /// Where the section ends: the first address past it.
    fn end(self, by: By) -> u64 {
        let size = match (by, self.virtual_size) {
            (By::RawSize, _) | (By::MemorySize, 0) => self.size_of_raw_data,
            (By::MemorySize, size) => size,
        };
        self.virtual_address + size
    }
}

pub fn section_offset(by: By, table: &[u8], address: u32) -> Answer<(u16, u32)> {
    SECTIONS.count(table)?;
    let address = u64::from(address);
    let begun = headers(table).take_while(|header| header.virtual_address <= address);
    let holder = begun
        .enumerate()
        .find(|(_, header)| address < header.end(by));
    let offset = |header: Header| (address - header.virtual_address) as u32;
    Ok(holder.map(|(place, header)| (place as u16 + 1, offset(header))))
}

pub fn virtual_address(table: &[u8], section: u16, offset: u32) -> Answer<u32> {
    SECTIONS.count(table)?;
    let header = match section {
        0 => None,
        _ => headers(table).nth(usize::from(section) - 1),
    };
    let sum = |header: Header| fits(header.virtual_address + u64::from(offset));
    header.map(sum).transpose()
}

/// The bytes before the first zero of the eight, if Rust takes them as UTF-8. Else none, and none of a
/// section that is not there and of a table that is refused.
pub fn name(table: &[u8], number: u16) -> &[u8] {
    let mut headers = table.chunks_exact(SECTIONS.width);
    let header = match (SECTIONS.count(table), number) {
        (Err(_), _) | (_, 0) => None,
        (Ok(_), number) => headers.nth(usize::from(number) - 1),
    };
    let text = header.and_then(|header| header[..8].split(|&byte| byte == 0).next());
    text.filter(|text| from_utf8(text).is_ok()).unwrap_or(&[])
}

// ---- the domain of equality with pdb

/// Whether every header's address and raw size add up within 32 bits, as pdb adds them.
pub fn extents_fit(table: &[u8]) -> bool {
    headers(table).all(|header| header.end(By::RawSize) <= u32::MAX.into())
}

/// How the two sizes of a table's headers agree: as those of the worst header do.
#[derive(Clone, Copy, Debug, Eq, Ord, PartialEq, PartialOrd)]
pub enum Sizes {
    /// There is no header.
    NoHeader,
    /// They are equal: what is promised to equal pdb's answers by memory size too.
    Equal,
    /// virtual_size is 0: both rules take the raw size.
    Zero,
    /// The two rules take different sizes.
    Different,
}

pub fn sizes(table: &[u8]) -> Sizes {
    let of = |header: Header| match header.virtual_size {
        size if size == header.size_of_raw_data => Sizes::Equal,
        0 => Sizes::Zero,
        _ => Sizes::Different,
    };
    headers(table).map(of).max().unwrap_or(Sizes::NoHeader)
}
