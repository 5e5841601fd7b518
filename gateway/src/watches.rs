//! Watches: clients are told of commits that have written cells in rows with a prefix.

use std::collections::{BTreeMap, HashMap};

use crate::gateway::Gateway;
use crate::program::Run;
use crate::protocol::*;
use crate::things::{stamp_of_commit, Thing};
use crate::turns::REPLIES_OF_ALL;

/// The most watches of a client, the untaken bytes from which on it gets only one more message on each watch, and the
/// most bytes of a message's cells.
const WATCHES_OF_CLIENT: usize = 16;
const CHANGES_OF_CLIENT: usize = 32_768;
const CHANGE_SIZE: usize = 32_768;

const LONGEST_ROW: usize = 4000;
const LONGEST_FAMILY: usize = 64;

/// The tags of the reply, and of the two messages: a commit with its cells, and commits that aren't told one by one.
const BEGUN: u8 = 0;
const CHANGED: u8 = 1;
const UNNAMED: u8 = 2;

/// A watch of the client in a place, in one family or in all. `order` says how many things had been opened before it,
/// and `is_behind` that the client is still to be told of commits without their cells.
struct Watch {
    place: usize,
    prefix: Box<[u8]>,
    family: Option<Box<[u8]>>,
    order: u64,
    is_behind: bool,
}

/// What a watch tells its client: a commit with its cells, or that there were some.
pub enum Message {
    Changed(Vec<u8>),
    Unnamed,
}

#[derive(Default)]
pub struct Watches {
    by_number: BTreeMap<u64, Watch>,
    by_length: BTreeMap<usize, HashMap<Box<[u8]>, Vec<u64>>>,
    last: u64,
    pub changes: u64,
    pub unnamed: u64,
}

impl Watches {
    pub fn len(&self) -> usize {
        self.by_number.len()
    }

    pub fn is_empty(&self) -> bool {
        self.by_number.is_empty()
    }

    /// The numbers of a client's watches.
    pub fn of(&self, place: usize) -> Vec<u64> {
        self.by_number.iter().filter(|(_, watch)| watch.place == place).map(|(number, _)| *number).collect()
    }

    /// Begins a watch, by the body of its request, and returns the reply.
    pub fn begin(&mut self, place: usize, body: &[u8], order: u64) -> Vec<u8> {
        let Some((prefix, family)) = fields_of(body) else { return BAD_REQUEST.into() };
        if prefix.len() > LONGEST_ROW {
            return BAD_ROW.into();
        }
        if family.is_some_and(|family| !is_family(family)) {
            return BAD_COLUMN.into();
        }
        if self.of(place).len() >= WATCHES_OF_CLIENT {
            return TOO_MANY.into();
        }
        self.last += 1;
        let family = family.map(Box::from);
        self.by_number.insert(self.last, Watch { place, prefix: prefix.into(), family, order, is_behind: false });
        self.by_length.entry(prefix.len()).or_default().entry(prefix.into()).or_default().push(self.last);
        message(BEGUN, self.last, &[])
    }

    /// Ends the watches of a client.
    pub fn end(&mut self, place: usize) {
        for number in self.of(place) {
            let prefix = self.by_number.remove(&number).map(|watch| watch.prefix).unwrap_or_default();
            let by_prefix = self.by_length.entry(prefix.len()).or_default();
            let same = by_prefix.entry(prefix.clone()).or_default();
            same.retain(|each| *each != number);
            if same.is_empty() {
                by_prefix.remove(&prefix);
            }
            if by_prefix.is_empty() {
                self.by_length.remove(&prefix.len());
            }
        }
    }

    /// The watches of a cell.
    pub fn watching<'a>(&'a self, (row, family): &'a Cell) -> impl Iterator<Item = u64> + 'a {
        let begins = self.by_length.iter().filter_map(|(length, by_prefix)| by_prefix.get(row.get(..*length)?));
        let watches = move |number: &&u64| self.by_number[number].family.as_ref().is_none_or(|wanted| wanted == family);
        begins.flatten().filter(watches).copied()
    }

    /// What is told of a commit, by its stamp, the session that it names if that is still known, and the cells in its
    /// request. `begins` says that it has begun its session: then it has all cells with it.
    pub fn told(&self, stamp: &[u8], session: Option<&Thing>, begins: bool, cells: Vec<Cell>) -> Vec<(u64, Message)> {
        let written = session.and_then(|session| session.written.as_ref());
        let mut all = written.cloned().unwrap_or_default();
        for cell in cells {
            if !all.contains(&cell) {
                all.push(cell);
            }
        }
        let mut found: BTreeMap<u64, Vec<&Cell>> = BTreeMap::new();
        for cell in &all {
            self.watching(cell).for_each(|watch| found.entry(watch).or_default().push(cell));
        }
        // Of a watch that began later it isn't known whether the session has written cells
        let known = session.filter(|session| session.written.is_some()).map(|session| session.order);
        let unsure = |watch: &Watch| !begins && known.is_none_or(|order| watch.order >= order);
        let unsure: Vec<u64> = self.by_number.iter().filter(|each| unsure(each.1)).map(|each| *each.0).collect();
        found.retain(|number, _| !unsure.contains(number));
        let changes = found.into_iter().map(|(number, cells)| (number, change(stamp, &cells)));
        unsure.iter().map(|number| (*number, Message::Unnamed)).chain(changes).collect()
    }

    /// The place of the client of a watch, and its message, if it is to have one now. `takes` says whether a client
    /// takes its replies.
    pub fn message(&mut self, number: u64, told: Message, takes: impl Fn(usize) -> bool) -> Option<(usize, Vec<u8>)> {
        let watch = self.by_number.get_mut(&number)?;
        let place = watch.place;
        match told {
            Message::Changed(cells) if !watch.is_behind && takes(place) => {
                self.changes += 1;
                Some((place, message(CHANGED, number, &cells)))
            }
            _ => {
                watch.is_behind = !takes(place);
                let is_told = !watch.is_behind;
                self.unnamed += u64::from(is_told);
                is_told.then(|| (place, message(UNNAMED, number, &[])))
            }
        }
    }

    /// The watches whose client is still to be told of commits without their cells.
    pub fn behind(&self, place: usize) -> Vec<u64> {
        self.by_number.iter().filter(|each| each.1.place == place && each.1.is_behind).map(|each| *each.0).collect()
    }
}

impl Gateway {
    /// Records the cell of a Set or a Delete that is passed on, if it is watched.
    pub fn note_write(&mut self, place: usize, body: &[u8]) {
        let cell = cell_of(body);
        if let Some(cell) = cell.filter(|cell| self.watches.watching(cell).next().is_some()) {
            self.things.note_write(be64(&body[1..9]), self.clients[place].name, cell);
        }
    }

    /// Tells of a commit, by the reply to a Step or a Commit.
    pub fn tell_of_commit(&mut self, run: &Run, reply: &[u8]) {
        let Some(stamp) = stamp_of_commit(reply) else { return };
        let named = run.request.names;
        let session = named.and_then(|key| self.things.by_name.get(&key)).filter(|thing| thing.number == run.number);
        let cells = run.commit.as_deref().and_then(cells_of).unwrap_or_default();
        for (watch, message) in self.watches.told(stamp, session, named.is_none(), cells) {
            self.tell(watch, message);
        }
    }

    /// Tells a client of the commits that it took too little for before.
    pub fn catch_up(&mut self, place: usize) {
        for watch in self.watches.behind(place) {
            self.tell(watch, Message::Unnamed);
        }
    }

    fn tell(&mut self, watch: u64, message: Message) {
        let (clients, replies_held) = (&self.clients, self.replies_held);
        // It has taken nearly all of its replies
        let takes = |place: usize| match clients[place].output.len() {
            0 => true,
            held => held < CHANGES_OF_CLIENT && replies_held < REPLIES_OF_ALL,
        };
        if let Some((place, message)) = self.watches.message(watch, message, takes) {
            self.put(place, &message);
        }
    }
}

/// The prefix and the family in the body of a watch.
fn fields_of(body: &[u8]) -> Option<(&[u8], Option<&[u8]>)> {
    let mut fields = Fields(body.get(1..)?);
    let prefix = fields.counted()?;
    let family = if fields.flag()? { Some(fields.counted()?) } else { None };
    fields.0.is_empty().then_some((prefix, family))
}

fn is_family(family: &[u8]) -> bool {
    let may = |byte: &u8| (0x21..=0x7E).contains(byte) && *byte != b':';
    (1..=LONGEST_FAMILY).contains(&family.len()) && family.iter().all(may)
}

/// A commit with its cells, unless they are too long.
fn change(stamp: &[u8], cells: &[&Cell]) -> Message {
    let mut told = [stamp, &(cells.len() as u32).to_be_bytes()].concat();
    cells.iter().for_each(|cell| put_cell(&mut told, cell));
    if told.len() > CHANGE_SIZE {
        Message::Unnamed
    } else {
        Message::Changed(told)
    }
}

/// The body of a reply or a message about a watch.
fn message(tag: u8, number: u64, rest: &[u8]) -> Vec<u8> {
    [&[WATCH | REPLY, tag][..], &number.to_be_bytes(), rest].concat()
}

#[cfg(test)]
mod tests {
    use super::*;

    /// A session that the gateway has stopped, while its Step was on its way, may have written cells of any watch.
    #[test]
    fn a_session_that_is_not_known_any_more() {
        let mut watches = Watches::default();
        for prefix in [b"\x74\0\0\0\x01a\0", b"\x74\0\0\0\x01b\0"] {
            assert_eq!(watches.begin(0, prefix, 0)[1], BEGUN);
        }
        let told = watches.told(&[0; 8], None, false, vec![(b"ab"[..].into(), b"c"[..].into())]);
        assert!(matches!(told[..], [(1, Message::Unnamed), (2, Message::Unnamed)]));
    }
}
