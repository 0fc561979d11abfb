//! What a run of kind 9 may be given beside what every run is given.

use std::ops::RangeInclusive;

use super::{Metadata, Ref, Schema, StatisticsFile};

/// What is given, each by its tag. A table that is given goes into the metadata, and the answer shows it.
#[derive(Debug, Clone, Default)]
pub struct More {
    /// Tag 1, in milliseconds.
    pub tolerance: Option<i64>,
    /// Tag 2: the table of statistics. Else it is empty.
    pub statistics: bool,
    /// Tag 3, the same of the partition statistics.
    pub partition_statistics: bool,
    /// Tag 4: the schemas with names and types. Else they are longs, each named by its id.
    pub schemas: bool,
    /// Tag 5: the partition specs, which of them is the default, and the last partition id. Else there is one, without fields.
    pub specs: bool,
    /// Tag 6.
    pub office: Option<u8>,
    /// Tag 7: whose each ref is. Else all are office 1's.
    pub owners: bool,
}

/// Numbers that a run goes by.
#[derive(Debug, Clone, Copy)]
pub struct Terms {
    /// In milliseconds.
    pub tolerance: i64,
    pub office: u8,
}

/// The terms of a run that is given none.
impl Default for Terms {
    fn default() -> Self {
        Self {
            tolerance: 60_000,
            office: OFFICE_1,
        }
    }
}

pub const OFFICE_1: u8 = 1;
pub const OFFICE_2: u8 = 2;

/// The tolerances that a run may be given.
pub const TOLERANCES: RangeInclusive<i64> = 0..=3_600_000;

/// A table of the metadata that may be given.
pub enum Table<'a> {
    Statistics(&'a [StatisticsFile]),
    Schemas(&'a [Schema]),
    /// With the default spec's id and the last partition id.
    Specs(&'a Metadata),
    /// Their owners alone.
    Owners(&'a [Ref]),
}

impl More {
    pub fn terms(&self) -> Terms {
        let unless_given = Terms::default();
        Terms {
            tolerance: self.tolerance.unwrap_or(unless_given.tolerance),
            office: self.office.unwrap_or(unless_given.office),
        }
    }

    pub fn has_statistics(&self) -> bool {
        self.statistics || self.partition_statistics
    }

    pub fn has_specs(&self) -> bool {
        self.schemas || self.specs
    }

    pub fn has_offices(&self) -> bool {
        self.office.is_some() || self.owners
    }

    /// Those of the metadata's tables that are given, each behind its tag.
    pub fn tables<'a>(&self, m: &'a Metadata) -> Vec<(u8, Table<'a>)> {
        let all = [
            (self.statistics, 2, Table::Statistics(&m.statistics)),
            (
                self.partition_statistics,
                3,
                Table::Statistics(&m.partition_statistics),
            ),
            (self.schemas, 4, Table::Schemas(&m.schemas)),
            (self.specs, 5, Table::Specs(m)),
            (self.owners, 7, Table::Owners(&m.refs)),
        ];
        let given = all.into_iter().filter(|(given, ..)| *given);
        given.map(|(_, tag, table)| (tag, table)).collect()
    }
}
