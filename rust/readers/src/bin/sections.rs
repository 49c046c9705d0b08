//! Prints the section headers of a PE file, or of a bare table, a line for each:
//!
//!     sections FILE            sections --table FILE

use gillacorn::{SectionCharacteristics, SectionTable};
use readers::section_table;

fn main() {
    let words: Vec<String> = std::env::args().skip(1).collect();
    let (path, bare) = match &words[..] {
        [path] => (path, false),
        [word, path] if word == "--table" => (path, true),
        _ => panic!("sections [--table] FILE"),
    };
    let file = std::fs::read(path).expect(path);
    let table = if bare {
        &file[..]
    } else {
        section_table(&file)
    };
    let table = SectionTable::new(table);
    for (place, header) in table.headers().expect(path).iter().enumerate() {
        let raw: Vec<String> = header.name.iter().map(|b| format!("{b:02X}")).collect();
        // The two ways to a name are one.
        assert_eq!(table.name(place as u16 + 1), header.name());
        println!(
            "{} {} {:X} {:X} {:X} {:X} {:X} {:X} {} {} {:X} {}",
            place + 1,
            raw.concat(),
            header.virtual_size,
            header.virtual_address,
            header.size_of_raw_data,
            header.pointer_to_raw_data,
            header.pointer_to_relocations,
            header.pointer_to_line_numbers,
            header.number_of_relocations,
            header.number_of_line_numbers,
            header.characteristics.0,
            flags(header.characteristics).join(" "),
        );
    }
}

/// The flags under the PE format's names, in their order as words.
fn flags(c: SectionCharacteristics) -> Vec<String> {
    let named = [
        (c.executable(), "CNT_CODE"),
        (c.initialized_data(), "CNT_INITIALIZED_DATA"),
        (c.uninitialized_data(), "CNT_UNINITIALIZED_DATA"),
        (c.other(), "LNK_OTHER"),
        (c.info(), "LNK_INFO"),
        (c.remove(), "LNK_REMOVE"),
        (c.comdat(), "LNK_COMDAT"),
        (c.global_pointer_relative(), "GPREL"),
        (c.purgeable(), "MEM_PURGEABLE"),
        (c.locked(), "MEM_LOCKED"),
        (c.preload(), "MEM_PRELOAD"),
        (c.lnk_nreloc_ovfl(), "LNK_NRELOC_OVFL"),
        (c.discardable(), "MEM_DISCARDABLE"),
        (c.not_cached(), "MEM_NOT_CACHED"),
        (c.not_paged(), "MEM_NOT_PAGED"),
        (c.shared(), "MEM_SHARED"),
        (c.execute(), "MEM_EXECUTE"),
        (c.read(), "MEM_READ"),
        (c.write(), "MEM_WRITE"),
    ];
    let set = named.iter().filter(|(set, _)| *set);
    let mut flags: Vec<String> = set.map(|(_, name)| format!("IMAGE_SCN_{name}")).collect();
    if let Some(alignment) = c.alignment() {
        flags.push(format!("IMAGE_SCN_ALIGN_{alignment}BYTES"));
    }
    flags.sort();
    flags
}
