//! The cursor, every field after each step, also on tables out of order and after the end.

use gillacorn::ffi;
use gillacorn::{Cursor, OMAPTable, Step};

use crate::case::{Case, Put};
use crate::gen;
use crate::judged::JudgedTable;
use crate::operations::Op;
use crate::ours::code_if;
use crate::rng::Rng;
use crate::rules::{self, OMAP};
use crate::tally::Tally;

/// A code, a piece and a cursor: what a start (without the piece) or a step gives.
#[derive(Clone, Copy, Debug, PartialEq)]
struct Stepped {
    code: u32,
    piece: Option<(u32, u32)>,
    cursor: Cursor,
}

impl Put for Stepped {
    fn put(&self, out: &mut Vec<u8>) {
        (self.code as u8).put(out);
        if let Some(piece) = self.piece {
            piece.put(out);
        }
        self.cursor.put(out);
    }
}

fn cursor_of(fields: [u32; 4], place: usize) -> Cursor {
    let [address, end, source, target] = fields;
    Cursor {
        address,
        end,
        source,
        target,
        place,
    }
}

fn fields_of(cursor: Cursor) -> [u32; 4] {
    [cursor.address, cursor.end, cursor.source, cursor.target]
}

/// Starts a cursor and steps it until the end, and twice after it.
pub fn walk(tally: &mut Tally, asked: &JudgedTable<'_>, a: u32, b: u32) {
    let stepped = |code, cursor| Stepped {
        code,
        piece: None,
        cursor,
    };
    let rule = match rules::start(asked.table, a, b) {
        Ok(cursor) => stepped(0, cursor_of(cursor.fields, cursor.place)),
        Err(number) => stepped(number, Cursor::default()),
    };
    let rust = (rule.code == 0).then(|| {
        let cursor = asked.fields.as_ref().unwrap().start(a..b);
        stepped(0, cursor_of(cursor.fields, cursor.place))
    });
    let raw = ffi::cursor_start(asked.lent, a, b);
    let mut ours = stepped(raw.code, raw.cursor);
    if let Some(table) = asked.table {
        let wrapped = match OMAPTable::new(table).cursor(a..b) {
            Ok(cursor) => stepped(0, cursor),
            Err(refusal) => stepped(refusal.number(), Cursor::default()),
        };
        ours.code = code_if(ours == wrapped, ours.code);
    }
    tally.judge(Op::CursorStart, rule, rust, ours, |case| {
        case.lent("table", asked.lent).number("a", a).number("b", b);
    });

    if raw.code != 0 || rule.code != 0 {
        return;
    }
    let mut cursor = raw.cursor;
    let mut ended = 0;
    for _ in 0..400 {
        let after = step(tally, asked, cursor);
        match after.code {
            0 => {}
            255 if ended < 2 => ended += 1,
            255 => return builds(tally, asked, a, b),
            _ => return,
        }
        cursor = after.cursor;
    }
}

/// The pieces of pdb as it is, beside those of the build whose fields are seen.
fn builds(tally: &mut Tally, asked: &JudgedTable<'_>, a: u32, b: u32) {
    let unchanged = asked.rust.as_ref().unwrap().lookup_range(a..b).collect();
    let fields = asked.fields.as_ref().unwrap();
    let mut opened = Vec::new();
    let mut cursor = fields.start(a..b);
    while let (Some(range), after) = fields.step(cursor) {
        opened.push(range);
        cursor = after;
    }
    tally.builds(unchanged, opened, |case| {
        case.lent("table", asked.lent).number("a", a).number("b", b);
    });
}

/// Steps a cursor that nothing started, some steps long.
pub fn anywhere(tally: &mut Tally, rng: &mut Rng, asked: &JudgedTable<'_>) {
    let bytes = asked.lent.bytes;
    let mut number = |offset: usize| gen::address(rng, bytes, OMAP, offset);
    let mut fields = [number(0), number(0), number(0), number(0)];
    if rng.one_in(2) {
        fields[3] = rng.pick(&[0, 1, u32::MAX, 0x5000]);
    }
    if rng.one_in(3) {
        fields.swap(0, 2);
    }
    let count = bytes.len() / OMAP.width;
    let place = match rng.below(8) {
        0 => usize::MAX - rng.below(2),
        1 => count + rng.below(3),
        _ => rng.below(count + 1),
    };
    let mut cursor = cursor_of(fields, place);
    for _ in 0..6 {
        let after = step(tally, asked, cursor);
        if after.code != 0 && after.cursor == cursor {
            break;
        }
        cursor = after.cursor;
    }
}

fn step(tally: &mut Tally, asked: &JudgedTable<'_>, cursor: Cursor) -> Stepped {
    let stepped = |code, piece: Option<(u32, u32)>, cursor| Stepped {
        code,
        piece: Some(piece.unwrap_or_default()),
        cursor,
    };
    let before = rules::Cursor {
        fields: fields_of(cursor),
        place: cursor.place,
    };
    let told = |piece: Option<(u32, u32)>, fields, place| {
        let code = if piece.is_some() { 0 } else { 255 };
        stepped(code, piece, cursor_of(fields, place))
    };
    let rule = rules::step(asked.table, before);
    let rust = rule.is_ok().then(|| {
        let before = oracle_fields::Cursor {
            fields: before.fields,
            place: before.place,
        };
        let (piece, after) = asked.fields.as_ref().unwrap().step(before);
        told(piece.map(|r| (r.start, r.end)), after.fields, after.place)
    });
    let rule = match rule {
        Ok((piece, after)) => told(piece, after.fields, after.place),
        Err(number) => stepped(number, None, cursor),
    };
    let raw = ffi::cursor_step(cursor, asked.lent);
    let mut ours = stepped(raw.code, Some((raw.start, raw.end)), raw.cursor);
    if let Some(table) = asked.table {
        let wrapped = match OMAPTable::new(table).step(cursor) {
            Ok(Step::Piece(piece, after)) => stepped(0, Some((piece.start, piece.end)), after),
            Ok(Step::Done(after)) => stepped(255, None, after),
            Err(refusal) => stepped(refusal.number(), None, cursor),
        };
        ours.code = code_if(ours == wrapped, ours.code);
    }
    tally.judge(Op::CursorStep, rule, rust, ours, |case| {
        put_cursor(case.lent("table", asked.lent), cursor);
    });
    ours
}

fn put_cursor(case: &mut Case, cursor: Cursor) {
    case.number("address", cursor.address)
        .number("end", cursor.end)
        .number("source", cursor.source)
        .number("target", cursor.target)
        .place("place", cursor.place);
}
