//! Stand-in for the transforms of document 02.

use super::PrimitiveType;

#[derive(Debug, Clone, Copy, PartialEq, Eq, Hash)]
pub enum Transform {
    Identity,
    Year,
    Month,
    Day,
    Bucket(i32),
}

impl Transform {
    fn is_of_time(self) -> bool {
        matches!(self, Self::Year | Self::Month | Self::Day)
    }

    /// Year, month and day want a timestamp; the others take either type.
    pub fn takes(self, source: PrimitiveType) -> bool {
        !self.is_of_time() || source == PrimitiveType::Timestamp
    }

    /// Whether two fields of one source that are so transformed are one too many: equal ones, or both of year, month and day.
    pub fn is_redundant_with(self, other: Self) -> bool {
        self == other || self.is_of_time() && other.is_of_time()
    }
}
