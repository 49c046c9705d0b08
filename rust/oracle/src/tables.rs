//! Tables as pdb makes them out of streams.

use std::ops::Range;

use crate::container::Container;
use crate::framedata::FrameTable;
use crate::omap::{AddressMap, OMAPTable, RangeIter};
use crate::pe::ImageSectionHeader;
use crate::Result;

/// Tables given as bytes, each present or absent, by number.
pub struct Tables(Container);

impl Tables {
    pub fn new(tables: &[Option<&[u8]>]) -> Self {
        Tables(Container::new(tables))
    }

    /// The headers of a section table. pdb reads them so: it parses until nothing is left.
    pub fn headers(&self, number: usize) -> Result<Option<Vec<ImageSectionHeader>>> {
        let stream = match self.0.stream(number)? {
            Some(stream) => stream,
            None => return Ok(None),
        };
        let mut buffer = stream.parse_buffer();
        let mut headers = Vec::with_capacity(buffer.len() / 40);
        while !buffer.is_empty() {
            headers.push(ImageSectionHeader::parse(&mut buffer)?);
        }
        Ok(Some(headers))
    }

    /// An OMAP table; absent tables come as the identity.
    pub fn omap(&self, number: usize) -> Result<Omap> {
        let stream = self.0.stream(number)?;
        Ok(Omap(stream.map(OMAPTable::parse).transpose()?))
    }

    /// The same through pdb's own reader of files, whose bytes need not be aligned.
    pub fn omap_as_file(&self, number: usize) -> Result<Omap> {
        let stream = self.0.stream_as_file(number)?;
        Ok(Omap(stream.map(OMAPTable::parse).transpose()?))
    }

    /// Tables 0 to 3 as original sections, transformed sections, to-original, to-transformed.
    pub fn address_map(&self) -> Result<AddressMap<'static>> {
        Ok(AddressMap {
            original_sections: self.headers(0)?.unwrap_or_default(),
            transformed_sections: self.headers(1)?,
            transformed_to_original: self.omap(2)?.0,
            original_to_transformed: self.omap(3)?.0,
        })
    }

    /// Tables 0 and 1 as old and new frames.
    pub fn frames(&self) -> Result<FrameTable<'static>> {
        FrameTable::parse(self.0.stream(0)?, self.0.stream(1)?)
    }
}

/// pdb's `OMAPTable`, or none.
pub struct Omap(Option<OMAPTable<'static>>);

impl Omap {
    pub fn records(&self) -> Vec<(u32, u32)> {
        let records = self.0.as_ref().map_or(&[][..], |table| table.records());
        let pair = |r: &crate::omap::OMAPRecord| (r.source_address(), r.target_address());
        records.iter().map(pair).collect()
    }

    /// `OMAPTable::lookup`; with no table, what `AddressMap` does instead.
    pub fn lookup(&self, address: u32) -> Option<u32> {
        match &self.0 {
            Some(table) => table.lookup(address),
            None => Some(address),
        }
    }

    /// `OMAPTable::lookup_range`; with no table, what `AddressMap` does instead.
    pub fn lookup_range(&self, window: Range<u32>) -> impl Iterator<Item = Range<u32>> + '_ {
        self.iter(window)
    }

    fn iter(&self, window: Range<u32>) -> RangeIter<'_> {
        match &self.0 {
            Some(table) => table.lookup_range(window),
            None => RangeIter::identity(window),
        }
    }
}

/// A `RangeIter` of which every field is seen.
#[cfg(feature = "fields")]
#[derive(Clone, Copy, Debug, Eq, PartialEq)]
pub struct Cursor {
    /// Address, end, source and target.
    pub fields: [u32; 4],
    /// The place of the next record to pull.
    pub place: usize,
}

#[cfg(feature = "fields")]
impl Omap {
    pub fn start(&self, window: Range<u32>) -> Cursor {
        self.seen(&self.iter(window))
    }

    /// `RangeIter::next` on an iterator with the cursor's fields.
    pub fn step(&self, cursor: Cursor) -> (Option<Range<u32>>, Cursor) {
        let mut iter = RangeIter::of_fields(self.0.as_ref(), cursor.fields, cursor.place);
        let piece = iter.next();
        let mut after = self.seen(&iter);
        // Past the end there are no records to count by.
        after.place = after.place.max(cursor.place);
        (piece, after)
    }

    fn seen(&self, iter: &RangeIter<'_>) -> Cursor {
        let count = self.0.as_ref().map_or(0, |table| table.records().len());
        Cursor {
            fields: iter.fields(),
            place: count - iter.records_left(),
        }
    }
}
