//! Addresses to sections and back, and the twelve conversions of an address map.

use gillacorn::ffi::{OffsetAnswer, ValueAnswer};
use oracle::{PdbInternalRva, PdbInternalSectionOffset, Rva, SectionOffset, Tables};

use crate::driver::{all, many, Driver};
use crate::face;
use crate::inputs::{numbers, omap, questions, sections, HEADERS, SECTION, SIZES};

pub fn run(driver: &mut Driver) {
    driver.topic("Addresses");
    for headers in HEADERS {
        to_section(driver, headers);
    }
    from_section(driver);
    for (headers, records) in HEADERS.into_iter().zip(SIZES) {
        conversions(driver, headers, records);
    }
}

/// An answer of either side as a number.
trait Told {
    fn told(self) -> u64;
}

fn offset(section: u16, offset: u32) -> u64 {
    1 + (u64::from(section) << 32 | u64::from(offset))
}

impl Told for ValueAnswer {
    fn told(self) -> u64 {
        if self.code == 0 {
            1 + u64::from(self.value)
        } else {
            0
        }
    }
}

impl Told for OffsetAnswer {
    fn told(self) -> u64 {
        if self.code == 0 {
            offset(self.section, self.offset)
        } else {
            0
        }
    }
}

macro_rules! told {
    ($($type:ident($given:ident) = $number:expr;)*) => {$(
        impl Told for Option<$type> {
            fn told(self) -> u64 {
                self.map_or(0, |$given| $number)
            }
        }
    )*};
}

told! {
    Rva(given) = 1 + u64::from(given.0);
    PdbInternalRva(given) = 1 + u64::from(given.0);
    SectionOffset(given) = offset(given.section, given.offset);
    PdbInternalSectionOffset(given) = offset(given.section, given.offset);
}

/// Both rules of an address to its section, by memory size and by raw size, which is pdb's. The two
/// sizes are the same in every header, so that all have the same answers.
const RULES: [(bool, &str); 2] = [(false, ""), (true, " by raw size")];

fn to_section(driver: &mut Driver, headers: usize) {
    let bytes = sections(headers, b".text");
    let tables = Tables::new(&[Some(&bytes), None, None, None]);
    let map = tables.address_map().unwrap();
    let asked = numbers(questions(headers), 0..headers as u32 * SECTION);
    for (by_raw_size, by) in RULES {
        driver.row(
            &format!("address to section{by}, {}", many(headers, "header")),
            asked.len(),
            || {
                all(&asked, |a| {
                    face::gillacorn_section_offset_by(by_raw_size, &bytes, a).told()
                })
            },
            || all(&asked, |a| Rva(a).to_section_offset(&map).told()),
        );
    }
}

fn from_section(driver: &mut Driver) {
    let bytes = sections(96, b".text");
    let tables = Tables::new(&[Some(&bytes), None, None, None]);
    let map = tables.address_map().unwrap();
    let asked = numbers(2_000, 0..SECTION);
    let section = |a: u32| 1 + (a % 96) as u16;
    driver.row(
        "section to address, 96 headers",
        asked.len(),
        || {
            all(&asked, |a| {
                face::gillacorn_virtual_address(&bytes, section(a), a).told()
            })
        },
        || {
            all(&asked, |a| {
                SectionOffset::new(section(a), a).to_rva(&map).told()
            })
        },
    );
}

/// All four tables are there, and what the OMAPs map lies in the sections.
fn conversions(driver: &mut Driver, headers: usize, records: usize) {
    let end = headers as u32 * SECTION;
    let section_table = sections(headers, b".text");
    let moved = omap(records, end);
    let four: [&[u8]; 4] = [&section_table, &section_table, &moved, &moved];
    let tables = Tables::new(&four.map(Some));
    let map = tables.address_map().unwrap();
    // The addresses that the OMAP owns, as far as there are sections for them.
    let asked = numbers(
        questions(records),
        0x100..end.min(0x100 + 16 * records as u32),
    );
    let size = format!("{}, {}", many(headers, "header"), many(records, "record"));

    macro_rules! row {
        ($text:literal, $face:ident, $from:ident, $to:ident, |$a:ident| $($word:expr),+) => {
            row!(one $text, $face(), $from, $to, |$a| $($word),+)
        };
        // By either rule, where an address is located.
        (by $text:literal, $face:ident, $from:ident, $to:ident, |$a:ident| $($word:expr),+) => {
            for (by_raw_size, by) in RULES {
                row!(one format!("{}{by}", $text), $face(by_raw_size,), $from, $to, |$a| $($word),+)
            }
        };
        (one $text:expr, $face:ident($($by:tt)*), $from:ident, $to:ident,
            |$a:ident| $($word:expr),+) => {
            driver.row(
                &format!("{}, {size}", $text),
                asked.len(),
                || all(&asked, |$a| face::$face($($by)* $($word,)+ &four).told()),
                || all(&asked, |$a| row!($from $($word),+).$to(&map).told()),
            )
        };
        ($from:ident $rva:expr) => { $from($rva) };
        ($from:ident $section:expr, $offset:expr) => { $from::new($section, $offset) };
    }
    // The section that an address lies in, and its offset there.
    let section = |a: u32| (1 + a / SECTION) as u16;
    let offset = |a: u32| a % SECTION;

    row!(
        "rva to internal rva",
        gillacorn_rva_to_internal_rva,
        Rva,
        to_internal_rva,
        |a| a
    );
    row!(
        by "rva to section offset",
        gillacorn_rva_to_section_offset_by,
        Rva,
        to_section_offset,
        |a| a
    );
    row!(
        by "rva to internal offset",
        gillacorn_rva_to_internal_offset_by,
        Rva,
        to_internal_offset,
        |a| a
    );
    row!(
        "internal rva to rva",
        gillacorn_internal_rva_to_rva,
        PdbInternalRva,
        to_rva,
        |a| a
    );
    row!(
        by "internal rva to section offset",
        gillacorn_internal_rva_to_section_offset_by,
        PdbInternalRva,
        to_section_offset,
        |a| a
    );
    row!(
        by "internal rva to internal offset",
        gillacorn_internal_rva_to_internal_offset_by,
        PdbInternalRva,
        to_internal_offset,
        |a| a
    );
    row!(
        "section offset to rva",
        gillacorn_offset_to_rva,
        SectionOffset,
        to_rva,
        |a| section(a),
        offset(a)
    );
    row!(
        "section offset to internal rva",
        gillacorn_offset_to_internal_rva,
        SectionOffset,
        to_internal_rva,
        |a| section(a),
        offset(a)
    );
    row!(
        by "section offset to internal offset",
        gillacorn_offset_to_internal_offset_by,
        SectionOffset,
        to_internal_offset,
        |a| section(a),
        offset(a)
    );
    row!(
        "internal offset to rva",
        gillacorn_internal_offset_to_rva,
        PdbInternalSectionOffset,
        to_rva,
        |a| section(a),
        offset(a)
    );
    row!(
        "internal offset to internal rva",
        gillacorn_internal_offset_to_internal_rva,
        PdbInternalSectionOffset,
        to_internal_rva,
        |a| section(a),
        offset(a)
    );
    row!(
        by "internal offset to section offset",
        gillacorn_internal_offset_to_section_offset_by,
        PdbInternalSectionOffset,
        to_section_offset,
        |a| section(a),
        offset(a)
    );
}
