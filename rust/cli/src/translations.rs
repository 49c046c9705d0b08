//! Single translations, as `draw` and `lookup` show them.

use std::fmt::Write;

use gillacorn::{OMAPTable, Refusal};

use crate::{json, progress};

/// An address, and where it goes; none is a hole.
struct Translation {
    source: u32,
    target: Option<u32>,
    /// How many records were probed, where that is told.
    probes: Option<u32>,
}

pub struct Translations(Vec<Translation>);

impl Translations {
    /// Of each address by the search alone, or the first refusal. On a table that was found to be in
    /// order these are the answers of the full lookup.
    pub fn of(
        table: OMAPTable<'_>,
        addresses: Vec<u32>,
        tell_probes: bool,
    ) -> Result<Self, Refusal> {
        let found = progress::during("addresses", Some(addresses.len()), |done| {
            let translate = |source| {
                done.one_more();
                let found = table.quick_lookup(source)?;
                Ok(Translation {
                    source,
                    target: found.target_address,
                    probes: tell_probes.then_some(found.probes),
                })
            };
            addresses
                .into_iter()
                .map(translate)
                .collect::<Result<_, Refusal>>()
        })?;
        Ok(Translations(found))
    }

    pub fn text(&self) -> String {
        let mut text = String::new();
        for found in &self.0 {
            let _ = write!(text, "{:08X} ", found.source);
            let _ = match found.target {
                Some(target) => write!(text, "{target:08X}"),
                None => write!(text, "hole"),
            };
            if let Some(probes) = found.probes {
                let _ = write!(text, " probes {probes}");
            }
            text.push('\n');
        }
        text
    }

    pub fn json(&self) -> String {
        let list = json::list(&self.0, |text, found| {
            let (source, target) = (found.source, json::number(found.target));
            let _ = write!(text, "{{\"source\":{source},\"target\":{target}");
            if let Some(probes) = found.probes {
                let _ = write!(text, ",\"probes\":{probes}");
            }
            text.push('}');
        });
        format!("{{\"addresses\":{list}}}\n")
    }
}
