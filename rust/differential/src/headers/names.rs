//! Names: bytes at the edges of RFC 3629's ranges, and texts of letters, whole, cut and changed.

use gillacorn::{ffi, SectionTable};
use oracle::Tables;

use crate::case::Put;
use crate::gen::EDGES;
use crate::operations::Op;
use crate::rng::Rng;
use crate::rules::{self, SECTIONS};
use crate::tally::Tally;

/// Bytes in a header that hold its name.
const NAME: usize = 8;

/// The first and the last letter of each row of RFC 3629's table, but for 0, which ends a name.
const LETTERS: [char; 18] = [
    '\u{1}',
    '\u{7f}',
    '\u{80}',
    '\u{7ff}',
    '\u{800}',
    '\u{fff}',
    '\u{1000}',
    '\u{cfff}',
    '\u{d000}',
    '\u{d7ff}',
    '\u{e000}',
    '\u{ffff}',
    '\u{10000}',
    '\u{3ffff}',
    '\u{40000}',
    '\u{fffff}',
    '\u{100000}',
    '\u{10ffff}',
];

pub fn run(tally: &mut Tally, rng: &mut Rng) {
    let mut batch = Batch::new(tally);
    let bytes: Vec<u8> = (0..=0xff).collect();
    let edge = |byte: &u8| EDGES.contains(byte);
    for a in &bytes {
        for b in &bytes {
            batch.ask(last(&[*a, *b]));
            // Three bytes of which one is an edge. 0 is one: all of two bytes are among them.
            let third = if edge(a) || edge(b) {
                &bytes[..]
            } else {
                &EDGES
            };
            third.iter().for_each(|c| batch.ask(first(&[*a, *b, *c])));
        }
    }
    for number in 0..EDGES.len().pow(4) {
        let digit = |place| EDGES[number / EDGES.len().pow(place) % EDGES.len()];
        let four = [0, 1, 2, 3].map(digit);
        batch.ask(first(&four));
        batch.ask(last(&four));
    }
    texts(&mut Vec::new(), &mut |text| {
        let mut name = first(text);
        batch.ask(name);
        // Behind the zero that ends it anything may stand.
        let rest = name.iter_mut().skip(text.len() + 1);
        rest.for_each(|byte| *byte = rng.next() as u8);
        batch.ask(name);
        for place in 0..NAME {
            let mut changed = name;
            changed[place] = rng.pick(&EDGES);
            batch.ask(changed);
        }
    });
    batch.compare();
}

/// A name that begins with the given bytes, and has zeros behind them.
fn first(bytes: &[u8]) -> [u8; NAME] {
    let mut name = [0; NAME];
    name[..bytes.len()].copy_from_slice(bytes);
    name
}

/// A name that ends with the given bytes, and has ASCII before them.
fn last(bytes: &[u8]) -> [u8; NAME] {
    let mut name = [b'a'; NAME];
    name[NAME - bytes.len()..].copy_from_slice(bytes);
    name
}

/// Every text of the letters that a name holds, which begins with the given one, and each of them with
/// a part of one more letter.
fn texts(text: &mut Vec<u8>, ask: &mut dyn FnMut(&[u8])) {
    ask(text);
    let length = text.len();
    for letter in LETTERS {
        let mut four = [0; 4];
        let letter = letter.encode_utf8(&mut four).as_bytes();
        for part in 1..=letter.len().min(NAME - length) {
            text.extend_from_slice(&letter[..part]);
            if part == letter.len() {
                texts(text, ask);
            } else {
                ask(text);
            }
            text.truncate(length);
        }
    }
}

/// Names that are asked together, since pdb reads a whole table.
struct Batch<'t> {
    tally: &'t mut Tally,
    /// Always the most headers: too many for a replay, whose sample does not depend on these names.
    table: Vec<u8>,
    names: usize,
}

impl<'t> Batch<'t> {
    fn new(tally: &'t mut Tally) -> Self {
        Batch {
            tally,
            table: vec![0; SECTIONS.width * SECTIONS.most],
            names: 0,
        }
    }

    fn ask(&mut self, name: [u8; NAME]) {
        self.table[self.names * SECTIONS.width..][..NAME].copy_from_slice(&name);
        self.names += 1;
        if self.names == SECTIONS.most {
            self.compare();
        }
    }

    fn compare(&mut self) {
        let tables = Tables::new(&[Some(&self.table)]);
        let headers = tables.headers(0).unwrap().unwrap();
        for (header, number) in headers[..self.names].iter().zip(1..) {
            name(self.tally, &self.table, number, Some(header.name()));
        }
        self.names = 0;
    }
}

/// A name as an answer. A replay holds its length.
#[derive(Debug, PartialEq)]
enum Name<'t> {
    Bytes(&'t [u8]),
    /// The wrapper's two ways to the name and the face's length do not say the same.
    WrapperDiffers,
}

impl Put for Name<'_> {
    fn put(&self, out: &mut Vec<u8>) {
        match self {
            Name::Bytes(bytes) => (bytes.len() as u8).put(out),
            Name::WrapperDiffers => unreachable!("no judge says so"),
        }
    }
}

/// One name, by the rule and by pdb, where pdb takes the table.
pub fn name(tally: &mut Tally, table: &[u8], number: u16, theirs: Option<&str>) {
    let wrapped = SectionTable::new(table);
    let place = usize::from(number).wrapping_sub(1);
    let header = wrapped.header(place).ok().flatten().unwrap_or_default();
    let name = wrapped.name(number).as_bytes();
    let same = header.name().as_bytes() == name && ffi::name_length(table, number) == name.len();
    tally.judge(
        Op::Name,
        Name::Bytes(rules::name(table, number)),
        theirs.map(|name| Name::Bytes(name.as_bytes())),
        if same {
            Name::Bytes(name)
        } else {
            Name::WrapperDiffers
        },
        |case| {
            case.table("table", table).number("number", number);
            case.beside("name", &header.name);
        },
    );
}
