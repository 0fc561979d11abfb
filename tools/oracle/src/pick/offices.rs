//! What a run shows of request (xi): what stands behind 35 and in what it lies, what an office does beside the other, and its close.

use crate::case::{BRANCH, Metadata, More, OFFICE_1, OFFICE_2, Ref, Run, Terms, Update};
use crate::port::{self, Book, Going, Owns};

#[derive(Debug, Clone, Copy, PartialEq, Eq, PartialOrd, Ord)]
pub enum Fact {
    /// Whether an office and owners are given, and the reply, if it is one that offices bring.
    Given(bool, bool, Option<u8>),
    /// 1 for an owner, of `main` or of another ref, that is office 2 or no office.
    Owner {
        main: bool,
        office_2: bool,
    },
    /// An office that is none, and the reply.
    NoOffice(Option<u8>),
    /// 39 with an update that is not well formed, with one that would be the other's for either office, with neither.
    Behind39 {
        ill_formed: bool,
        others: bool,
    },
    /// 3 for an update of this kind that names what is the other's, or is kept.
    Before35(u8),
    /// 35 for an update of this kind, and whether it would be logged else, change nothing or be refused; and with what.
    Behind35(u8, Else),
    NumberBehind35(u8),
    /// 35 for a removal of what is reached: by tags alone; over more than one step; by a walk that comes round; by a snapshot
    /// that this run added.
    Reached {
        by_tags: bool,
        far: bool,
        round: bool,
        added: bool,
    },
    /// This office's update of this kind, logged or not, beside refs of the other.
    Accepted(u8, u8, bool),
    /// A ref that this office makes, whose name the start has or not.
    Made(u8, bool),
    /// This office moves a ref of its own; a removal of its own drops one.
    Moved(u8),
    Dropped(u8),
    /// This office removes a snapshot beside a walk of the other that comes round.
    BesideRing(u8),
    /// This office's close, and its number.
    Close(u8, u8),
    /// A close of office 2 passes: with a removal, with a snapshot log that names what is not held, with one that ends elsewhere than at the
    /// current snapshot.
    Unbuilt {
        removal: bool,
        lost: bool,
        elsewhere: bool,
    },
}

/// What an update that is the other's would come to if it were not.
#[derive(Debug, Clone, Copy, PartialEq, Eq, PartialOrd, Ord)]
pub enum Else {
    Logged,
    Nothing,
    Refused,
}

/// The replies that offices bring, and acceptance.
const BROUGHT: [u8; 4] = [0, 1, 35, 39];

/// What a run shows by what it is given and its reply.
pub fn given(run: &Run, more: &More, number: Option<u8>) -> Vec<Fact> {
    let office = more.terms().office;
    let brought = number.filter(|number| BROUGHT.contains(number));
    let mut facts = vec![Fact::Given(more.office.is_some(), more.owners, brought)];
    if number == Some(1) {
        let faults = run.metadata.refs.iter().filter(|r| !port::owner_formed(r));
        facts.extend(faults.map(|r| Fact::Owner {
            main: r.name == b"main",
            office_2: r.owner == OFFICE_2,
        }));
    }
    if ![OFFICE_1, OFFICE_2].contains(&office) {
        facts.push(Fact::NoOffice(number));
    }
    if number == Some(39) {
        facts.push(Fact::Behind39 {
            ill_formed: !run.updates.iter().all(port::update_formed),
            others: [OFFICE_1, OFFICE_2].iter().all(|office| {
                let book = Book::new(&run.metadata, *office);
                run.updates.iter().any(|u| book.refuses(u).is_some())
            }),
        });
    }
    facts
}

/// The run before its update is refused with this number.
pub fn refused(run: &Run, before: &Going, update: &Update, number: u8) -> Vec<Fact> {
    let book = before.book();
    match number {
        3 if book.refuses(update).is_some() => vec![Fact::Before35(update.kind())],
        35 => {
            let mut facts = behind(update.kind(), before.whosever(update));
            if let Update::RemoveSnapshots(ids) = update {
                facts.extend(ids.iter().filter_map(|id| reached(run, book, *id)));
            }
            facts
        }
        _ => Vec::new(),
    }
}

fn behind(kind: u8, published: Result<bool, u8>) -> Vec<Fact> {
    match published {
        Ok(true) => vec![Fact::Behind35(kind, Else::Logged)],
        Ok(false) => vec![Fact::Behind35(kind, Else::Nothing)],
        Err(number) => vec![
            Fact::Behind35(kind, Else::Refused),
            Fact::NumberBehind35(number),
        ],
    }
}

fn reached(run: &Run, book: &Book, id: i64) -> Option<Fact> {
    let by: Vec<_> = book
        .others()
        .filter(|r| book.reach(r.snapshot_id).contains(&id))
        .collect();
    let start = &run.metadata.snapshots;
    book.needed(id).reached.then(|| Fact::Reached {
        by_tags: by.iter().all(|r| r.kind != BRANCH),
        far: by.iter().all(|r| book.parent(r.snapshot_id) != Some(id)),
        round: by.iter().all(|r| book.comes_round(r.snapshot_id)),
        added: start.iter().all(|s| s.id != id),
    })
}

/// An accepted update of this office.
pub fn accepted(
    run: &Run,
    terms: Terms,
    before: &Going,
    update: &Update,
    after: &Going,
) -> Vec<Fact> {
    let (office, book) = (terms.office, before.book());
    if book.others().next().is_none() {
        return Vec::new();
    }
    let logged = after.builder().logged() > before.builder().logged();
    let mut facts = vec![Fact::Accepted(office, update.kind(), logged)];
    let [m, then] = [before, after].map(Going::metadata);
    let held = |m: &Metadata, name: &[u8]| -> Option<Ref> {
        m.refs.iter().find(|r| r.name == name).cloned()
    };
    for r in &then.refs {
        match held(&m, &r.name) {
            None => facts.push(Fact::Made(office, held(&run.metadata, &r.name).is_some())),
            Some(was) if was != *r => facts.push(Fact::Moved(office)),
            Some(_) => (),
        }
    }
    if matches!(update, Update::RemoveSnapshots(_)) && logged {
        if then.refs.len() < m.refs.len() {
            facts.push(Fact::Dropped(office));
        }
        if book.others().any(|r| book.comes_round(r.snapshot_id)) {
            facts.push(Fact::BesideRing(office));
        }
    }
    facts
}

/// The run at its close.
pub fn close(run: &Run, terms: Terms, going: &Going) -> Vec<Fact> {
    let m = &run.metadata;
    if m.refs.iter().all(|r| r.owner == terms.office) {
        return Vec::new();
    }
    let closed = port::close(going.clone(), &mut Owns::new());
    let number = closed.as_ref().err().copied().unwrap_or(0);
    let mut facts = vec![Fact::Close(terms.office, number)];
    if let (Ok(accepted), OFFICE_2) = (closed, terms.office) {
        let removal = |update: &Update| matches!(update, Update::RemoveSnapshots(_));
        let held = |id: i64| accepted.metadata.snapshots.iter().any(|s| s.id == id);
        let last = m.snapshot_log.last().map(|entry| entry.snapshot_id);
        let current = m.current_snapshot_id.get();
        facts.push(Fact::Unbuilt {
            removal: accepted.log.iter().any(removal),
            lost: m.snapshot_log.iter().any(|entry| !held(entry.snapshot_id)),
            elsewhere: current.is_some() && current != last,
        });
    }
    facts
}
