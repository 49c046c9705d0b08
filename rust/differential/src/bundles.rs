//! Bundles, which pdb lacks: the judge is request 2's rules. Most files are damaged ones.

mod asked;
mod damage;
mod large;
mod mapping;
mod rules;

use gillacorn::ffi::Lent;

use self::rules::PARTS;
use crate::operations::Op;
use crate::rng::Rng;
use crate::tally::Tally;

const OPS: [Op; 2] = [Op::BundleRead, Op::BundleWrite];
/// A part is absent, empty, or has bytes.
const STATES: usize = 3;

pub fn run(tally: &mut Tally, rng: &mut Rng, want: u64) {
    for number in 0..STATES.pow(PARTS as u32) {
        let held = Held::of_states(rng, number);
        let file = held.ask(tally, rng);
        damage::each_byte(tally, rng, &file);
        damage::each_word(tally, &file);
        damage::each_length(tally, rng, &file);
        damage::each_pair(tally, &file);
    }
    large::run(tally);
    let goal = tally.compared(&OPS) + want;
    while tally.compared(&OPS) < goal {
        let held = Held::some(rng);
        let file = held.ask(tally, rng);
        for _ in 0..20 {
            let damaged = match rng.below(3) {
                0 => damage::elsewhere(rng, &held.bytes),
                1 => damage::noise(rng),
                _ => damage::several(rng, &file),
            };
            asked::read(tally, &damaged);
        }
    }
}

/// The bytes of six parts, and which of them are there: the others are lent beside an absent mark.
struct Held {
    bytes: [Vec<u8>; PARTS],
    present: [bool; PARTS],
}

impl Held {
    fn new(rng: &mut Rng, length: impl Fn(&mut Rng, usize) -> Option<usize>) -> Self {
        let mut held = Held {
            bytes: Default::default(),
            present: [false; PARTS],
        };
        for (number, bytes) in held.bytes.iter_mut().enumerate() {
            let length = length(rng, number);
            held.present[number] = length.is_some();
            let length = length.unwrap_or_else(|| rng.below(9));
            *bytes = (0..length).map(|_| rng.next() as u8).collect();
        }
        held
    }

    /// Parts in the states that are the digits of a number.
    fn of_states(rng: &mut Rng, number: usize) -> Self {
        Held::new(rng, |rng, part| {
            match number / STATES.pow(part as u32) % STATES {
                0 => None,
                1 => Some(0),
                _ => Some(1 + rng.below(7)),
            }
        })
    }

    /// Parts of any length, seldom more than 255 bytes.
    fn some(rng: &mut Rng) -> Self {
        Held::new(rng, |rng, _| match rng.below(16) {
            0..=3 => None,
            4..=6 => Some(0),
            7 => Some(250 + rng.below(300)),
            _ => Some(1 + rng.below(40)),
        })
    }

    fn lent(&self) -> [Lent<'_>; PARTS] {
        std::array::from_fn(|number| Lent {
            present: self.present[number],
            bytes: &self.bytes[number],
        })
    }

    /// Asks the writer with outputs of every kind, and the reader what it wrote; gives the bundle.
    fn ask(&self, tally: &mut Tally, rng: &mut Rng) -> Vec<u8> {
        let parts = self.lent();
        let file = rules::write(&asked::present(&parts), usize::MAX).unwrap();
        let need = file.len();
        for room in [0, 55, need - 1, need, need + 1, need + 100, rng.below(need)] {
            asked::write(tally, &parts, room);
        }
        asked::read(tally, &file);
        asked::there_and_back(tally, &parts);
        file
    }
}
