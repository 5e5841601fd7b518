//! Open sessions, cleaners and collectors, as far as the program's replies tell of them. Whose they are the program
//! knows; here they are counted, and found when they are idle or one is to be taken away.

use std::collections::{BTreeMap, HashMap};
use std::time::Instant;

use crate::program::Run;
use crate::protocol::*;

/// The bytes of watched cells that all sessions together have written, each with so many bytes beside its name. Beyond
/// this a session's cells aren't recorded.
const WRITTEN_OF_ALL: usize = 16 << 20;
const CELL_SIZE: usize = 256;

/// The tags of answers to a Step.
const HELD: u8 = 1;
const CONFLICT: u8 = 2;
pub const COMMITTED: u8 = 4;
const LOST: u8 = 5;
const FINISHED: u8 = 6;

pub struct Thing {
    /// The program's number of its client, and the client's place and number of its own while it is connected.
    pub number: u32,
    pub place: usize,
    pub client: u64,
    pub user: usize,
    /// How many requests the program had got before the last one that names it.
    pub asked: u64,
    pub began: Instant,
    /// The number of its opening, by which a watch knows whether it began before.
    pub order: u64,
    /// In how many looks in a row it was idle.
    pub idle_looks: u32,
    cells: usize,
    /// The watched cells that a session has written, or None if they aren't recorded.
    pub written: Option<Vec<Cell>>,
}

#[derive(Default)]
pub struct Things {
    pub by_name: HashMap<(Kind, u64), Thing>,
    pub opened: u64,
    pub counts: [usize; 3],
    written: usize,
}

impl Thing {
    /// A thing of a client in a place, by the numbers of both, and of its user, which opens now.
    pub fn new(number: u32, place: usize, client: u64, user: usize, asked: u64, now: Instant) -> Thing {
        let written = Some(Vec::new());
        Thing { number, place, client, user, asked, began: now, order: 0, idle_looks: 0, cells: 0, written }
    }
}

impl Things {
    /// Records what has opened.
    pub fn open(&mut self, key: (Kind, u64), thing: Thing) {
        self.opened += 1;
        self.counts[key.0 as usize] += 1;
        self.by_name.insert(key, Thing { order: self.opened, ..thing });
    }

    /// Removes what has ended.
    pub fn close(&mut self, key: (Kind, u64)) -> Option<Thing> {
        let mut thing = self.by_name.remove(&key)?;
        self.counts[key.0 as usize] -= 1;
        self.written -= size_of(&mut thing);
        Some(thing)
    }

    /// Whether a thing of a run has ended with this reply, which also tells how far it is.
    pub fn has_ended(&mut self, run: &Run, reply: &[u8]) -> bool {
        let Some((kind, name)) = run.request.names else { return false };
        let Some(thing) = self.by_name.get_mut(&(kind, name)) else { return false };
        if thing.number != run.number {
            return false;
        }
        match (kind, reply[0]) {
            (_, REFUSED) => reply[1] == kind.unknown(),
            (Kind::Cleaner, _) => reply[1] != 1,
            (Kind::Collector, _) => reply[1] == 3,
            _ => run.request.ends || (run.request.code == STEP && has_ended_by_step(thing, reply)),
        }
    }

    /// Records a watched cell that a session writes. If there are too many, none of the session are recorded.
    pub fn note_write(&mut self, name: u64, number: u32, cell: Cell) {
        let Some(thing) = self.by_name.get_mut(&(Kind::Session, name)).filter(|thing| thing.number == number) else {
            return;
        };
        if let Some(written) = thing.written.as_mut().filter(|written| !written.contains(&cell)) {
            self.written += cell.0.len() + cell.1.len() + CELL_SIZE;
            written.push(cell);
        }
        let count = thing.written.as_ref().map_or(0, Vec::len);
        if self.written > WRITTEN_OF_ALL || count > MOST_CELLS as usize {
            self.written -= size_of(thing);
        }
    }

    /// The session that was idle longest, among those for which something holds.
    pub fn idlest_session(&self, holds: impl Fn(&Thing) -> bool) -> Option<(Kind, u64)> {
        let sessions = self.by_name.iter().filter(|(key, thing)| key.0 == Kind::Session && holds(thing));
        sessions.min_by_key(|(_, session)| (session.asked, session.order)).map(|(key, _)| *key)
    }

    /// The client of a user that has the most sessions, and how many. Of several such clients it is the newest.
    pub fn richest(&self, user: usize) -> Option<(u64, usize)> {
        let mut counts: BTreeMap<u64, usize> = BTreeMap::new();
        for (_, session) in self.by_name.iter().filter(|(key, thing)| key.0 == Kind::Session && thing.user == user) {
            *counts.entry(session.client).or_default() += 1;
        }
        counts.into_iter().max_by_key(|(_, count)| *count)
    }

    /// When the oldest session began.
    pub fn oldest_session(&self) -> Option<Instant> {
        let sessions = self.by_name.iter().filter(|(key, _)| key.0 == Kind::Session);
        sessions.map(|(_, thing)| thing.began).min()
    }
}

/// The size of the cells that a thing has recorded, which it forgets.
fn size_of(thing: &mut Thing) -> usize {
    thing.written.take().iter().flatten().map(|(row, family)| row.len() + family.len() + CELL_SIZE).sum()
}

/// The name of what has opened by a reply, if something has.
pub fn opened(kind: Kind, reply: &[u8]) -> Option<u64> {
    match (kind, reply[0], reply[1]) {
        (_, REFUSED, _) => None,
        (Kind::Cleaner, _, tag) => (tag == 1).then(|| be64(&reply[2..10])),
        _ => Some(be64(&reply[1..9])),
    }
}

/// Whether a session has ended with this answer to its Step.
fn has_ended_by_step(session: &mut Thing, reply: &[u8]) -> bool {
    match reply[1] {
        HELD => {
            session.cells = be32(&reply[4..6]);
            false
        }
        COMMITTED => session.cells == 1,
        FINISHED => reply[2..4] == reply[4..6],
        tag => tag == CONFLICT || tag == LOST,
    }
}

/// The stamp of the commit that the reply to a Step or a Commit tells of.
pub fn stamp_of_commit(reply: &[u8]) -> Option<&[u8]> {
    match reply {
        [0x84, COMMITTED, stamp @ ..] => Some(stamp),
        [0xB2, 1, rest @ ..] => rest.get(8..),
        _ => None,
    }
}

#[cfg(test)]
mod tests {
    use super::*;

    fn cell(number: usize) -> Cell {
        (format!("{number:04000}").into_bytes().into(), b"c"[..].into())
    }

    /// The cells of a session that would be too many for it or for all are forgotten, and the others stay.
    #[test]
    fn cells_of_all_sessions() {
        let mut things = Things::default();
        for name in 0..20 {
            things.open((Kind::Session, name), Thing::new(1, 0, 1, 0, 0, Instant::now()));
        }
        let count = |things: &Things, name| things.by_name[&(Kind::Session, name)].written.as_ref().map(Vec::len);
        things.note_write(0, 1, cell(7));
        things.note_write(0, 1, cell(7));
        things.note_write(0, 2, cell(8));
        assert_eq!((count(&things, 0), things.written), (Some(1), 4001 + CELL_SIZE));
        (0..257).for_each(|number| things.note_write(1, 1, cell(number)));
        assert_eq!(count(&things, 1), None);
        for name in 2..20 {
            (0..256).for_each(|number| things.note_write(name, 1, cell(number)));
        }
        assert_eq!((count(&things, 16), count(&things, 17), count(&things, 18)), (Some(256), None, None));
        (0..20).for_each(|name| drop(things.close((Kind::Session, name))));
        assert_eq!((things.written, things.counts), (0, [0; 3]));
    }
}
