//! Section headers, their names and what their characteristics say.

use gillacorn::SectionTable;
use oracle::Tables;

use crate::driver::{add, all, many, told, Driver};
use crate::face::{
    gillacorn_alignment, gillacorn_characteristics, gillacorn_header, gillacorn_name_length,
};
use crate::inputs::{numbers, sections, HEADERS};

pub fn run(driver: &mut Driver) {
    driver.topic("Headers");
    all_headers(driver);
    name(driver, "name `.text`", b".text");
    name(driver, "name `.textbss`", b".textbss");
    // Letters of two bytes each, of three and of four.
    for text in ["жзик", "日本", "𝄞𝄢"] {
        name(driver, &format!("name `{text}`"), text.as_bytes());
    }
    name(driver, "name `größe` in Latin-1, no UTF-8", b"gr\xf6\xdfe");
    characteristics(driver);
}

fn all_headers(driver: &mut Driver) {
    for headers in HEADERS {
        let bytes = sections(headers, b".text");
        let tables = Tables::new(&[Some(&bytes)]);
        driver.row(
            &format!("all of {}, a header", many(headers, "header")),
            headers,
            || {
                let (mut sum, mut place) = (0, 0);
                loop {
                    let given = gillacorn_header(&bytes, place);
                    if given.code != 0 {
                        break;
                    }
                    let header = given.header;
                    sum = add(sum, seen(header.virtual_address, header.characteristics));
                    place += 1;
                }
                sum
            },
            || {
                let headers = tables.headers(0).unwrap().unwrap();
                headers.iter().fold(0, |sum, header| {
                    add(sum, seen(header.virtual_address, header.characteristics.0))
                })
            },
        );
    }
}

fn seen(address: u32, characteristics: u32) -> u64 {
    u64::from(address) << 32 | u64::from(characteristics)
}

/// The face tells how long a name is; the wrapper, like pdb, gives it as text.
fn name(driver: &mut Driver, what: &str, name: &[u8]) {
    let bytes = sections(96, name);
    let table = SectionTable::new(&bytes);
    let theirs = Tables::new(&[Some(&bytes)]).headers(0).unwrap().unwrap();
    let text = std::str::from_utf8(name).unwrap_or_default();
    assert_eq!((table.name(96), theirs[95].name()), (text, text));
    let asked: Vec<u16> = (1..=96).collect();
    let their_name = || all(&asked, |n| theirs[usize::from(n) - 1].name().len() as u64);
    driver.row(
        &format!("{what}, its length"),
        asked.len(),
        || all(&asked, |n| gillacorn_name_length(&bytes, n) as u64),
        their_name,
    );
    driver.row(
        &format!("{what}, wrapper"),
        asked.len(),
        || all(&asked, |n| table.name(n).len() as u64),
        their_name,
    );
}

fn characteristics(driver: &mut Driver) {
    let asked = numbers(1_000, 0..u32::MAX);
    macro_rules! flags {
        ($($flag:ident)*) => {
            driver.row(
                "characteristics, all 20 flags",
                asked.len(),
                || all(&asked, |c| {
                    let flags = gillacorn_characteristics(c);
                    0 $(<< 1 | u64::from(flags.$flag))*
                }),
                || all(&asked, |c| {
                    let flags = oracle::SectionCharacteristics(c);
                    0 $(<< 1 | u64::from(flags.$flag()))*
                }),
            )
        };
    }
    flags!(executable initialized_data uninitialized_data other info remove comdat
        defer_speculative_exceptions global_pointer_relative purgeable locked preload
        lnk_nreloc_ovfl discardable not_cached not_paged shared execute read write);
    driver.row(
        "alignment",
        asked.len(),
        || {
            all(&asked, |c| {
                let given = gillacorn_alignment(c);
                told((given.code == 0).then_some(given.value))
            })
        },
        || {
            all(&asked, |c| {
                told(oracle::SectionCharacteristics(c).alignment().map(u32::from))
            })
        },
    );
}
