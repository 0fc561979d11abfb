//! Where an answer rests on the wrapper: the published code alone would have said something else, or might have.

use std::collections::BTreeSet;

use super::offices::Cause;

#[derive(Debug, Clone, Copy, PartialEq, Eq, PartialOrd, Ord)]
pub enum Own {
    /// 1: metadata, a file's name or a walk's lists break the rules for records.
    StartNotFormed,
    /// 2.
    ListSum,
    /// 3.
    UpdateNotFormed,
    /// 18: the published addition overflows.
    LargestId,
    /// 19: the published tables have no capacity.
    TableFull,
    /// 22.
    MainDisagrees,
    /// 23.
    MetadataLogFull,
    /// 24: the published walk never ends.
    Cycle,
    /// 25.
    ShortBuffer,
    /// 26.
    ToleranceOutside,
    /// 35: the published code has no offices.
    TheOthers(Cause),
    /// 39.
    NoSuchOffice,
    /// The published close rebuilds or refuses the snapshot log, that of office 2 does not look at it, and the answer is another for it.
    LogUnbuilt,
    /// The snapshot that was current at a time, and whether row ranges are apart: the published code answers neither.
    NotPublished,
    /// The published next row id grows by added rows alone, and the answer is another for it.
    NextRowId,
    /// The published tolerance is a minute, and the answer is another for it.
    Tolerance,
    /// The published subtraction of two times, or negation of a tolerance, overflows; document 01's differences are exact.
    ExactTime,
    /// A limit that is larger than the published code can be seen to keep.
    LargeLimit,
    /// A text that is not UTF-8 cannot be given to the published code.
    NotUtf8,
    /// Several held partition fields with unequal ids match an offered one that has none; it was given the smallest.
    SmallestFieldId,
    /// Removed specs are logged in table order; the published log has them in the order of the update.
    RemovedSpecs,
    /// A spec with fields was bound or had its sources looked at, by stand-ins for what is not in the published files.
    Binding,
    /// Allowance: several schemas, orders or specs equal the offered one; the map's order was steered to the smallest id.
    PickOfEquals,
    /// Allowance: a removal of two or more ids was put into table order.
    OrderOfIds,
}

pub type Owns = BTreeSet<Own>;

impl Own {
    pub fn describe(self) -> String {
        let text = match self {
            Own::TheOthers(cause) => return format!("35: {}", cause.describe()),
            Own::StartNotFormed => {
                "1: start or walk lists not well formed, the published code does not look"
            }
            Own::ListSum => "2: list sum, the published code has none",
            Own::UpdateNotFormed => "3: update not well formed, the published code does not look",
            Own::LargestId => "18: the published id addition overflows",
            Own::TableFull => "19: the published tables have no capacity",
            Own::MainDisagrees => "22: the published close does not look",
            Own::MetadataLogFull => "23: the published metadata log has no capacity",
            Own::Cycle => "24: the published walk never ends",
            Own::ShortBuffer => "25: the published walk has no buffer",
            Own::ToleranceOutside => "26: the published code is given no tolerance",
            Own::NoSuchOffice => "39: the published code has no offices",
            Own::LogUnbuilt => "close of office 2: the published one rebuilds or refuses the log",
            Own::NotPublished => "current at a time, rows apart: the published code has neither",
            Own::NextRowId => "next row id: the published one grows by added rows alone",
            Own::Tolerance => "tolerance: the published one is a minute",
            Own::ExactTime => "exact times: the published time subtraction overflows",
            Own::LargeLimit => "limit above what the published log can show",
            Own::NotUtf8 => "a text that is not UTF-8, the published texts are",
            Own::SmallestFieldId => "smallest of several field ids: the published pick is any",
            Own::RemovedSpecs => "removed specs: the published log has them as they were named",
            Own::Binding => "binding of specs: by stand-ins, the published files have none",
            Own::PickOfEquals => {
                "allowance: pick among several equal schemas, orders or specs, steered"
            }
            Own::OrderOfIds => "allowance: map order of two or more logged ids, sorted",
        };
        text.to_owned()
    }
}
