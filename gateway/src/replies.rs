//! The program's replies: each goes to its asker, and tells what has opened and what has ended.

use std::time::Instant;

use bytes::Buf;

use crate::client::Phase;
use crate::failure::Failure;
use crate::gateway::Gateway;
use crate::household::Event;
use crate::program::{Asker, Run, ADMINISTRATOR};
use crate::protocol::*;
use crate::shares;
use crate::things::{opened, stamp_of_commit, Thing};

impl Gateway {
    pub fn take_replies(&mut self, has_hung_up: bool) -> Result<(), Failure> {
        loop {
            let goes_on = self.program.read(has_hung_up)?;
            let mut came = std::mem::take(&mut self.program.came);
            let mut at = 0;
            while let Some((run, reply)) = self.program.reply(&came, &mut at)? {
                self.deliver(run, reply);
            }
            came.advance(at);
            self.program.came = came;
            match goes_on {
                Some(true) => {}
                Some(false) => return Ok(()),
                None => return self.program_has_ended(),
            }
        }
    }

    fn deliver(&mut self, run: Run, reply: &[u8]) {
        self.counts.checkpoints += u64::from(reply == CHECKPOINT_MADE);
        self.counts.splits += u64::from(reply.first() == Some(&(SPLIT | REPLY)));
        match &run.asker {
            Asker::Client(place) => self.answer_client(*place, &run, reply),
            Asker::End(place) => self.has_ended(*place, run.number),
            Asker::Own(to) => {
                self.note(&run, None, reply);
                *to.borrow_mut() = Some(reply.into());
            }
        }
    }

    fn answer_client(&mut self, place: usize, run: &Run, reply: &[u8]) {
        let client = &mut self.clients[place];
        client.in_flight -= 1;
        client.room -= run.request.room;
        self.replies_held -= run.request.room;
        if !self.watches.is_empty() {
            self.tell_of_commit(run, reply);
        }
        self.note(run, Some(place), reply);
        if run.request.code != 0 {
            self.counts.note(reply);
        }
        self.own.commits.set(self.own.commits.get() + u64::from(stamp_of_commit(reply).is_some()));
        self.note_time(place, run.request.code, run.since);
        self.put(place, reply);
        if reply == MEMTABLE_FULL {
            self.make_room(place);
        }
        let client = &self.clients[place];
        if !client.is_connected() {
            self.forget(place);
        } else if !client.input.is_empty() || client.phase == Phase::Ended {
            self.queue(place);
        }
    }

    /// Counts the time of a request that was there since then, and tells of it if it is long.
    pub fn note_time(&mut self, place: usize, code: u8, since: Instant) {
        let time = self.now - since;
        self.latencies.note(code, time);
        if self.slow.is_slow(time) {
            let client = &self.clients[place];
            self.slow.note(code, client.number, client.peer.process, time, self.now);
        }
    }

    /// Records what a reply says of a session, a cleaner or a collector: that it has opened, goes on, or has ended.
    fn note(&mut self, run: &Run, place: Option<usize>, reply: &[u8]) {
        let Some(kind) = run.opens() else {
            if let (true, Some(key)) = (self.things.has_ended(run, reply), run.request.names) {
                self.close(key);
            }
            return;
        };
        let client = place.map(|place| &mut self.clients[place]);
        let (user, number) = client.as_ref().map_or((shares::ADMINISTRATOR, 0), |client| (client.user, client.number));
        match opened(kind, reply) {
            Some(name) => {
                let asked = self.program.sent - 1;
                let place = place.unwrap_or_default();
                self.things.open((kind, name), Thing::new(run.number, place, number, user, asked, self.now));
            }
            None => {
                self.shares.remove(user, kind as usize);
                client.into_iter().for_each(|client| client.counts[kind as usize] -= 1);
            }
        }
    }

    /// The program has stopped the sessions of a client that is gone. Its cleaners and collectors, which are the
    /// administrator's now, are taken to their end.
    fn has_ended(&mut self, place: usize, number: u32) {
        let things = self.things.by_name.iter().filter(|(_, thing)| thing.number == number && thing.client > 0);
        let keys: Vec<(Kind, u64)> = things.map(|(key, _)| *key).collect();
        for key in keys {
            if key.0 == Kind::Session {
                self.close(key);
            } else if let Some(thing) = self.things.by_name.get_mut(&key) {
                (thing.number, thing.client) = (ADMINISTRATOR, 0);
                self.own.inherit(key.0, key.1);
            }
        }
        self.endings -= 1;
        self.clients[place].awaits_end = false;
        self.forget(place);
    }

    /// Writes memtables for a client that can't do so, since the administrator has a socket. Clients that need room get
    /// no turn meanwhile.
    fn make_room(&mut self, place: usize) {
        if !self.has_admin || self.clients[place].is_admin {
            return;
        }
        self.clients[place].needs_room = true;
        if !std::mem::replace(&mut self.is_making_room, true) {
            let own = self.own.clone();
            self.tasks.begin(async move {
                own.make_room().await;
                own.tell(Event::RoomMade);
            });
        }
    }

    pub fn room_is_made(&mut self) {
        self.is_making_room = false;
        for place in self.places() {
            self.clients[place].needs_room = false;
            self.queue(place);
        }
    }
}
