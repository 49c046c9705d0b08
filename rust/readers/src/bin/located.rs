//! Prints in which section of a PE file addresses lie, a line for each line of standard input, which
//! has one in hexadecimal:
//!
//!     located FILE
//!
//! A line has the address, our answer by memory size, ours by raw size, and pdb's. An answer is
//! SECTION:OFFSET, the section from 1, the offset in hexadecimal; or none.

use std::io::BufRead;

use gillacorn::{AddressMap, ExtentBy, Rva, SectionTable};
use oracle::Tables;
use readers::section_table;

fn main() {
    let path = std::env::args().nth(1).expect("located FILE");
    let file = std::fs::read(&path).expect(&path);
    let bytes = section_table(&file);
    let table = SectionTable::new(bytes);
    let map = AddressMap {
        original_sections: Some(bytes),
        ..AddressMap::default()
    };
    let theirs = Tables::new(&[Some(bytes), None, None, None]);
    let theirs = theirs.address_map().expect("pdb's map");
    for line in std::io::stdin().lock().lines() {
        let line = line.expect("a line");
        let address = u32::from_str_radix(&line, 16).expect(&line);
        let ours = table.section_offset(address).expect("no refusal");
        // The conversion is the same question.
        assert_eq!(Rva(address).to_section_offset(&map), Ok(ours));
        let by_raw = table.section_offset_by(ExtentBy::RawSize, address);
        let by_raw = by_raw.expect("no refusal");
        let theirs = oracle::Rva(address).to_section_offset(&theirs);
        println!(
            "{line} {} {} {}",
            shown(ours.map(|o| (o.section, o.offset))),
            shown(by_raw.map(|o| (o.section, o.offset))),
            shown(theirs.map(|o| (o.section, o.offset))),
        );
    }
}

fn shown(located: Option<(u16, u32)>) -> String {
    match located {
        Some((section, offset)) => format!("{section}:{offset:X}"),
        None => "none".into(),
    }
}
