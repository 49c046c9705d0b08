//! Clashes and the way back, which pdb lacks: the time alone, and how it grows.

use crate::driver::{all, many, Driver};
use crate::face::{gillacorn_clash, gillacorn_way_back, gillacorn_window};
use crate::inputs::{apart, numbers, questions, MOST};

/// The whole of what `apart` makes.
const WINDOW: std::ops::Range<u32> = 0..u32::MAX;

pub fn run(driver: &mut Driver) {
    driver.topic("Clashes");
    clash(driver);
    way_back(driver);
}

fn clash(driver: &mut Driver) {
    let mut before = None;
    let mut growth = Vec::new();
    for pieces in [1_000, 10_000, 30_000] {
        let bytes = apart(pieces);
        let mut out = vec![0; 2 * pieces];
        let given = gillacorn_window(true, &bytes, WINDOW.start, WINDOW.end, &mut out);
        assert_eq!((given.code, given.pieces), (0, pieces));
        let single = || {
            let given = gillacorn_clash(&bytes, WINDOW.start, WINDOW.end);
            assert_eq!(given.code, 255);
            0
        };
        let what = format!("clash, a single window of {}", many(pieces, "piece"));
        let took = driver.ours(&what, 1, single);
        driver.ours(
            &format!("{what}, a pair of pieces"),
            pieces * (pieces - 1) / 2,
            single,
        );
        if let (Some(before), Some(took)) = (before, took) {
            growth.push(format!("{:.1}", took / before));
        }
        before = took;
    }
    if let [ten, three] = &growth[..] {
        driver.note(format!(
            "Ten times the pieces take {ten} times as long, three times as many {three} times."
        ));
    }
}

fn way_back(driver: &mut Driver) {
    for pieces in [1, 1_000, MOST - 1] {
        let bytes = apart(pieces);
        let asked = numbers(questions(pieces), 0x1000..0x1000 + 16 * pieces as u32);
        driver.ours(
            &format!("way back, {}", many(pieces, "piece")),
            asked.len(),
            || {
                all(&asked, |t| {
                    let given = gillacorn_way_back(&bytes, WINDOW.start, WINDOW.end, t);
                    assert_eq!(given.code, 0);
                    u64::from(given.first)
                })
            },
        );
    }
}
