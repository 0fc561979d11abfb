//! Reads cases, one after another, until the input ends.

use std::io::BufRead;

use super::*;

pub type Read<T> = Result<T, BadCase>;

pub struct CaseReader<R> {
    tokens: Tokens<R>,
}

impl<R: BufRead> Iterator for CaseReader<R> {
    type Item = Read<Case>;

    fn next(&mut self) -> Option<Self::Item> {
        (!self.tokens.at_end()).then(|| self.case())
    }
}

impl<R: BufRead> CaseReader<R> {
    pub fn new(input: R) -> Self {
        let tokens = Tokens::new(input);
        Self { tokens }
    }

    fn case(&mut self) -> Read<Case> {
        match self.number::<u8>()? {
            1 => Ok(Case::Run(Box::new(self.run()?))),
            2 => Ok(Case::Walk {
                ids: self.counted(Self::number)?,
                parents: self.counted(Self::number)?,
                terms: self.walk_terms()?,
            }),
            3 => Ok(Case::WalkRecords {
                snapshots: self.counted(Self::snapshot)?,
                terms: self.walk_terms()?,
            }),
            4 => Ok(Case::Limit(self.optional_bytes()?)),
            5 => Ok(Case::TimeWindow {
                time: self.number()?,
                last: self.number()?,
            }),
            6 => Ok(Case::RowIds {
                next_row_id: self.number()?,
                first_row: self.number()?,
                added_rows: self.number()?,
            }),
            7 => Ok(Case::Trim(self.bytes()?)),
            8 => Ok(Case::CurrentAt {
                log: self.counted(Self::snapshot_log_entry)?,
                time: self.number()?,
            }),
            9 => {
                let mut run = self.run()?;
                let more = self.more(&mut run.metadata)?;
                Ok(Case::RunGiven(Box::new(run), more))
            }
            10 => Ok(Case::TimeWindowGiven {
                time: self.number()?,
                last: self.number()?,
                tolerance: self.number()?,
            }),
            11 => Ok(Case::RowsApart(Box::new(self.metadata()?))),
            _ => Err(BadCase),
        }
    }

    fn run(&mut self) -> Read<Run> {
        Ok(Run {
            metadata: self.metadata()?,
            clock: self.number()?,
            file: self.optional_bytes()?,
            limit: self.optional_bytes()?,
            updates: self.counted(Self::update)?,
        })
    }

    /// Each tag is one that is known, above the one before it. Tables go into the metadata.
    fn more(&mut self, metadata: &mut Metadata) -> Read<More> {
        let mut more = More::default();
        let mut before = 0;
        for _ in 0..self.number::<u64>()? {
            let tag: u64 = self.number()?;
            match tag {
                _ if tag <= before => return Err(BadCase),
                1 => more.tolerance = Some(self.number()?),
                2 => {
                    more.statistics = true;
                    metadata.statistics = self.counted(Self::statistics_file)?;
                }
                3 => {
                    more.partition_statistics = true;
                    metadata.partition_statistics = self.counted(Self::statistics_file)?;
                }
                4 => {
                    more.schemas = true;
                    metadata.schemas = self.counted(Self::named_schema)?;
                }
                5 => {
                    more.specs = true;
                    metadata.specs = self.counted(Self::spec)?;
                    metadata.default_spec_id = self.number()?;
                    metadata.last_partition_id = self.number()?;
                }
                6 => more.office = Some(self.number()?),
                7 => {
                    more.owners = true;
                    self.owners(&mut metadata.refs)?;
                }
                _ => return Err(BadCase),
            }
            before = tag;
        }
        Ok(more)
    }

    /// One for each ref.
    fn owners(&mut self, refs: &mut [Ref]) -> Read<()> {
        if self.number::<u64>()? != refs.len() as u64 {
            return Err(BadCase);
        }
        for reference in refs {
            reference.owner = self.number()?;
        }
        Ok(())
    }

    fn walk_terms(&mut self) -> Read<WalkTerms> {
        let terms = WalkTerms {
            start: self.number()?,
            excluded: self.flagged()?,
            buffer_length: self.number()?,
        };
        match terms.buffer_length <= capacity::WALK_BUFFER {
            true => Ok(terms),
            false => Err(BadCase),
        }
    }

    fn metadata(&mut self) -> Read<Metadata> {
        Ok(Metadata {
            version: self.number()?,
            uuid: self.uuid()?,
            location: self.bytes()?,
            last_updated_ms: self.number()?,
            last_sequence_number: self.number()?,
            next_row_id: self.number()?,
            last_column_id: self.number()?,
            current_snapshot_id: self.flagged()?,
            snapshots: self.counted(Self::snapshot)?,
            refs: self.counted(Self::reference)?,
            snapshot_log: self.counted(Self::snapshot_log_entry)?,
            metadata_log: self.counted(Self::metadata_log_entry)?,
            schemas: self.counted(Self::schema)?,
            current_schema_id: self.number()?,
            orders: self.counted(Self::order)?,
            default_order_id: self.number()?,
            statistics: Vec::new(),
            partition_statistics: Vec::new(),
            specs: vec![Spec::unpartitioned()],
            default_spec_id: DEFAULT_SPEC_ID,
            last_partition_id: LAST_PARTITION_ID,
        })
    }

    fn update(&mut self) -> Read<Update> {
        Ok(match self.number::<u8>()? {
            1 => Update::AssignUuid(self.uuid()?),
            2 => Update::UpgradeFormatVersion(self.number()?),
            3 => Update::SetLocation(self.bytes()?),
            4 => Update::AddSnapshot(self.snapshot()?),
            5 => Update::SetBranchSnapshot(self.bytes()?, self.snapshot()?),
            6 => Update::RemoveSnapshots(self.counted(Self::number)?),
            7 => Update::SetRef(self.reference()?),
            8 => Update::RemoveRef(self.bytes()?),
            9 => Update::AddSchema(self.schema()?),
            10 => Update::SetCurrentSchema(self.number()?),
            11 => Update::RemoveSchemas(self.counted(Self::number)?),
            12 => Update::AddSortOrder(self.order()?),
            13 => Update::SetDefaultSortOrder(self.number()?),
            14 => Update::SetStatistics(self.statistics_file()?),
            15 => Update::RemoveStatistics(self.number()?),
            16 => Update::SetPartitionStatistics(self.statistics_file()?),
            17 => Update::RemovePartitionStatistics(self.number()?),
            18 => Update::AddPartitionSpec(self.spec()?),
            19 => Update::SetDefaultPartitionSpec(self.number()?),
            20 => Update::RemovePartitionSpecs(self.counted(Self::number)?),
            21 => Update::AddNamedSchema(self.named_schema()?),
            kind => Update::UnknownKind(kind),
        })
    }

    fn uuid(&mut self) -> Read<[u8; 16]> {
        let mut uuid = [0; 16];
        for byte in &mut uuid {
            *byte = self.number()?;
        }
        Ok(uuid)
    }

    fn optional_bytes(&mut self) -> Read<Option<Bytes>> {
        match self.flag()? {
            true => Ok(Some(self.bytes()?)),
            false => Ok(None),
        }
    }

    pub(super) fn bytes(&mut self) -> Read<Bytes> {
        self.counted(Self::number)
    }

    pub(super) fn counted<T>(&mut self, one: impl Fn(&mut Self) -> Read<T>) -> Read<Vec<T>> {
        let count: u64 = self.number()?;
        (0..count).map(|_| one(self)).collect()
    }

    pub(super) fn flagged<T: TryFrom<i128>>(&mut self) -> Read<Flagged<T>> {
        Ok(Flagged {
            present: self.flag()?,
            value: self.number()?,
        })
    }

    pub(super) fn flag(&mut self) -> Read<bool> {
        match self.number::<u8>()? {
            0 => Ok(false),
            1 => Ok(true),
            _ => Err(BadCase),
        }
    }

    pub(super) fn number<T: TryFrom<i128>>(&mut self) -> Read<T> {
        self.tokens.number()
    }
}
