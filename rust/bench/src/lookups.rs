//! Single translations, and what they are made of: the order check and the search.

use gillacorn::OMAPTable;
use oracle::Tables;

use crate::driver::{all, in_turn, many, told, Driver};
use crate::face::{self, gillacorn_lookup, gillacorn_quick_lookup, gillacorn_record_at};
use crate::inputs::{numbers, omap, omap_window, questions, FAR, SIZES};

pub fn run(driver: &mut Driver) {
    driver.topic("Lookups");
    record(driver);
    for records in SIZES {
        let bytes = omap(records, FAR);
        let tables = Tables::new(&[Some(&bytes)]);
        let theirs = tables.omap(0).unwrap();
        let asked = numbers(questions(records), omap_window(records));
        driver.row(
            &format!("lookup, {}", many(records, "record")),
            asked.len(),
            || {
                all(&asked, |a| {
                    let given = gillacorn_lookup(true, &bytes, a);
                    assert!(given.code == 0 || given.code == 255);
                    told((given.code == 0).then_some(given.value))
                })
            },
            || all(&asked, |a| told(theirs.lookup(a))),
        );
    }
    quick(driver);
    order(driver);
}

fn record(driver: &mut Driver) {
    let bytes = omap(1_000, FAR);
    let asked = numbers(2_000, 0..1_000);
    driver.ours("record at a place", asked.len(), || {
        all(&asked, |place| {
            let given = gillacorn_record_at(&bytes, place as usize);
            u64::from(given.source) << 32 | u64::from(given.target)
        })
    });
}

/// The search alone: at the face, through the wrapper, and with each question waiting for the answer
/// before it, so that no two searches overlap.
fn quick(driver: &mut Driver) {
    for records in SIZES {
        let bytes = omap(records, FAR);
        let tables = Tables::new(&[Some(&bytes)]);
        let theirs = tables.omap(0).unwrap();
        let asked = numbers(2_000, omap_window(records));
        let table = OMAPTable::new(&bytes);
        let face = |a| {
            let given = gillacorn_quick_lookup(true, &bytes, a);
            assert!(given.code == 0 || given.code == 255);
            told((given.code == 0).then_some(given.value))
        };
        let wrapper = |a| told(table.quick_lookup(a).unwrap().target_address);
        let pdb = |a| told(theirs.lookup(a));
        let row = format!("quick lookup, {}", many(records, "record"));
        let count = asked.len();
        driver.row(&row, count, || all(&asked, face), || all(&asked, pdb));
        driver.row(
            &format!("{row}, wrapper"),
            count,
            || all(&asked, wrapper),
            || all(&asked, pdb),
        );
        driver.row(
            &format!("{row}, each waits for the one before"),
            count,
            || in_turn(&asked, face),
            || in_turn(&asked, pdb),
        );
    }
}

/// The order check by itself, beside the least that a reader of the same bytes does.
fn order(driver: &mut Driver) {
    #[cfg(not(inner = "order"))]
    driver.left_out("order check alone", NO_INNER);
    #[cfg(inner = "order")]
    for records in SIZES {
        let bytes = omap(records, FAR);
        let mut disordered = [bytes.clone(), bytes.clone()].concat();
        disordered.truncate(8 * records + 8);
        assert!(face::inner_order(&bytes) && !face::inner_order(&disordered));
        driver.limit(
            &format!(
                "order check alone, {}, a record (right: a plain sum of the bytes)",
                many(records, "record")
            ),
            records,
            || u64::from(face::inner_order(std::hint::black_box(&bytes))),
            || {
                let words = std::hint::black_box(&bytes).chunks_exact(4);
                u64::from(words.fold(0, |sum: u32, four| sum.wrapping_add(word(four))))
            },
        );
    }
}

#[cfg(inner = "order")]
fn word(bytes: &[u8]) -> u32 {
    u32::from_le_bytes(bytes.try_into().unwrap())
}

#[cfg(not(inner = "order"))]
const NO_INNER: &str = "rust/native.sh gave no inner function for it";
