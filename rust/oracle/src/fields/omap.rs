// Appended to a copy of pdb's omap.rs as the module `fields`: a child may read private fields.

use super::{OMAPRecord, OMAPTable, RangeIter};

impl<'t> RangeIter<'t> {
    /// Address, end, and the record that spans the address.
    pub(crate) fn fields(&self) -> [u32; 4] {
        let OMAPRecord { .. } = self.record;
        [
            self.addr,
            self.end,
            self.record.source_address(),
            self.record.target_address(),
        ]
    }

    /// How many records are still to be pulled.
    pub(crate) fn records_left(&self) -> usize {
        self.records.len()
    }

    /// An iterator with the given fields, whose next record is at `place`.
    pub(crate) fn of_fields(
        table: Option<&'t OMAPTable<'_>>,
        fields: [u32; 4],
        place: usize,
    ) -> Self {
        let [addr, end, source, target] = fields;
        let records = table.map_or(&[][..], |table| table.records());
        RangeIter {
            records: records.get(place..).unwrap_or(&[]).iter(),
            record: OMAPRecord::new(source, target),
            addr,
            end,
        }
    }
}
