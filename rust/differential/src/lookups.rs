//! Records of an OMAP table and single translations.

use gillacorn::ffi;
use gillacorn::OMAPTable;

use crate::judged::JudgedTable;
use crate::operations::Op;
use crate::ours::{both, both_quick, given, given_quick};
use crate::rules::{self, Quick};
use crate::tally::{Listed, Tally};

pub fn record(tally: &mut Tally, asked: &JudgedTable<'_>, place: usize) {
    // A record has no form for an absent table.
    let bytes = asked.lent.bytes;
    let rule = rules::record(bytes, place);
    let rust = match asked.table {
        Some(_) if rule.is_ok() => {
            let records = asked.rust.as_ref().unwrap().records();
            Some(Ok(records.get(place).copied()))
        }
        _ => None,
    };
    let raw = ffi::record_at(bytes, place);
    let wrapped = OMAPTable::new(bytes).record(place);
    let wrapped = wrapped.map(|r| r.map(|r| (r.source_address, r.target_address)));
    let ours = both(given(raw.code, (raw.source, raw.target)), wrapped);
    tally.judge(Op::RecordAt, rule, rust, ours, |case| {
        case.table("table", bytes).place("place", place);
    });
}

pub fn lookup(tally: &mut Tally, asked: &JudgedTable<'_>, address: u32) {
    let rule = rules::lookup(asked.table, address);
    let theirs = || asked.rust.as_ref().map(|omap| omap.lookup(address));
    let rust = rule.is_ok().then(|| Ok(theirs().unwrap()));
    match (rule, theirs()) {
        (Err(1), None) => tally.listed(Listed::WrongLength),
        (Err(2), Some(_)) => tally.listed(Listed::TooMany),
        (Err(3), Some(_)) => tally.listed(Listed::Order),
        (Err(4), Some(_)) => tally.listed(Listed::Sum),
        _ => {}
    }
    let raw = ffi::lookup(asked.lent, address);
    let mut ours = given(raw.code, raw.value);
    if let Some(table) = asked.table {
        ours = both(ours, OMAPTable::new(table).lookup(address));
    }
    tally.judge(Op::Lookup, rule, rust, ours, |case| {
        case.lent("table", asked.lent).number("address", address);
    });
}

/// On a table in order pdb's own lookup says what the translation is, and the rules how many records
/// are probed for it; elsewhere the rules say both.
pub fn quick_lookup(tally: &mut Tally, asked: &JudgedTable<'_>, address: u32) {
    let rule = rules::quick_lookup(asked.table, address);
    let rust = match (rule, rules::lookup(asked.table, address)) {
        (Ok(quick), Ok(_)) => Some(Ok(Quick {
            target: asked.rust.as_ref().unwrap().lookup(address),
            ..quick
        })),
        _ => None,
    };
    let mut ours = given_quick(ffi::quick_lookup(asked.lent, address));
    if let Some(table) = asked.table {
        ours = both_quick(ours, OMAPTable::new(table).quick_lookup(address));
    }
    tally.judge(Op::QuickLookup, rule, rust, ours, |case| {
        case.lent("table", asked.lent).number("address", address);
    });
}
