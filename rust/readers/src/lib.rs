//! What more than one of the readers takes out of a file.

use gillacorn::SectionTable;

/// The section table of a PE file: behind the optional header, whose size the COFF header tells.
pub fn section_table(file: &[u8]) -> &[u8] {
    let number = |at: usize, bytes: usize| {
        let part = file[at..at + bytes].iter().rev();
        part.fold(0, |n, &byte| n << 8 | usize::from(byte))
    };
    let signature = number(0x3c, 4);
    assert_eq!(&file[signature..signature + 4], b"PE\0\0");
    let count = number(signature + 6, 2);
    let start = signature + 24 + number(signature + 20, 2);
    &file[start..start + count * SectionTable::RECORD]
}
