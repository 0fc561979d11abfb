//! A run in the making, with the state that its updates have led to, so that the next update can be chosen to suit.

use super::propose::{self, Now};
use super::random::Random;
use super::start;
use super::world::World;
use super::{damage, leaves};
use crate::case::{More, Order, Run, Spec, Update, capacity};
use crate::port::{self, Going, Owns};

pub struct Draft {
    pub run: Run,
    world: World,
    going: Going,
}

impl Draft {
    /// A well-formed start with an empty list, of a run that is given this. `adjust` may change it, well formed.
    pub fn new(
        random: &mut Random,
        more: &More,
        adjust: impl FnOnce(&mut Random, &mut Run),
    ) -> Self {
        let world = World::new(random, more);
        let has_file = random.percent(60);
        let mut run = Run {
            metadata: start::start(random, &world, more),
            clock: world.any_time(random),
            file: has_file.then(|| start::file_name(random, 0)),
            limit: leaves::run_limit(random),
            updates: Vec::new(),
        };
        adjust(random, &mut run);
        let begun = port::begin(&run, world.terms, &mut Owns::new());
        let going = begun.expect("a start is well formed");
        Self { run, world, going }
    }

    pub fn now(&self) -> Now<'_> {
        Now {
            world: &self.world,
            metadata: self.going.metadata(),
            own_last_updated_ms: self.going.builder().own_last_updated_ms(),
            book: self.going.book(),
        }
    }

    /// Adds the update to the list if it is accepted here; else gives its number.
    pub fn offer(&mut self, update: Update) -> Result<(), u8> {
        self.going = port::step(self.going.clone(), &update, &mut Owns::new())?;
        self.run.updates.push(update);
        Ok(())
    }

    /// What the close would say now: 0, or its number.
    pub fn close(&self) -> u8 {
        let closed = port::close(self.going.clone(), &mut Owns::new());
        closed.err().unwrap_or(0)
    }

    /// The sum that the list still has room for.
    fn room(&self) -> usize {
        capacity::LIST_SUM - port::list_sum(&self.run.updates)
    }

    /// Grows the list by accepted updates to about the given sum.
    pub fn grow(&mut self, random: &mut Random, sum: usize) {
        for _ in 0..4 * sum {
            let room = sum.saturating_sub(port::list_sum(&self.run.updates));
            let update = propose::propose(random, &self.now());
            if port::list_sum(std::slice::from_ref(&update)) <= room {
                // A refused proposal is dropped.
                let _ = self.offer(update);
            }
        }
    }

    /// Adds updates without asking whether they are accepted, some of them ill formed.
    pub fn add_unasked(&mut self, random: &mut Random, count: usize) {
        for _ in 0..count {
            let mut update = propose::propose(random, &self.now());
            if random.percent(6) {
                damage::update(random, &mut update);
            }
            if self.room() >= 2 && self.offer(update.clone()).is_err() {
                self.run.updates.push(update);
            }
        }
    }

    /// Adds what makes a refused close pass; what cannot be mended so is cut back until it is accepted.
    pub fn mend(&mut self, random: &mut Random) {
        for _ in 0..6 {
            let mending = match self.close() {
                20 => vec![unsorted(), Update::SetDefaultSortOrder(-1)],
                31 | 32 => vec![unpartitioned(), Update::SetDefaultPartitionSpec(-1)],
                21 | 22 if random.percent(50) => vec![Update::RemoveRef(b"main".to_vec())],
                21 | 22 => vec![self.main_to_any(random)],
                _ => break,
            };
            for update in mending {
                if self.room() > 0 {
                    let _ = self.offer(update);
                }
            }
        }
        let refused = |run: &Run| port::run(run, self.world.terms).answer.is_err();
        while refused(&self.run) && self.run.updates.pop().is_some() {}
    }

    fn main_to_any(&self, random: &mut Random) -> Update {
        let held = propose::snapshot_ids(&self.now().metadata);
        let snapshot_id = random.any_of(&held).unwrap_or(0);
        Update::SetRef(start::reference(random, b"main".to_vec(), snapshot_id))
    }
}

fn unsorted() -> Update {
    let (id, fields) = (0, Vec::new());
    Update::AddSortOrder(Order { id, fields })
}

fn unpartitioned() -> Update {
    Update::AddPartitionSpec(Spec::unpartitioned())
}
