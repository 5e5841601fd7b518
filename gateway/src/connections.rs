//! Connections: who gets in, what is read and written, and how one ends.

use std::io::ErrorKind;
use std::rc::Rc;
use std::time::Duration;

use mio::event::Event as Readiness;
use mio::{Interest, Token};

use crate::client::{Client, Phase};
use crate::gateway::{Gateway, CLIENT, PAUSE};
use crate::household::Event;
use crate::program::{Asker, Run, ADMINISTRATOR};
use crate::protocol::*;
use crate::shares::{self, Share, CONNECTION};
use crate::sockets::{Listener, Stream};

/// The bytes of waiting requests of all clients. Beyond this the client with the most is closed.
const REQUESTS_OF_ALL: usize = 64 << 20;

/// How long a gateway leaves a connection to others at the same socket, for each client that it has, and for how many.
const PATIENCE: Duration = Duration::from_millis(3);
const MOST_PATIENCE: usize = 20;

/// The number of all clients that share one.
const SHARED: u32 = 1;

impl Gateway {
    /// The clients that are connected, with their places.
    pub fn connected(&self) -> impl Iterator<Item = (usize, &Client)> {
        self.clients.iter().filter(|(_, client)| client.is_connected())
    }

    pub fn places(&self) -> Vec<usize> {
        self.clients.iter().map(|(place, _)| place).collect()
    }

    /// Connections have come. Where other gateways accept at the same socket, each takes one after the other, and the
    /// later the more clients it has, so that all get about as many.
    pub fn come(&mut self, listener: usize) {
        let clients = self.shares.totals[CONNECTION].min(MOST_PATIENCE);
        if self.options.rows.is_none() || clients == 0 {
            return self.accept(listener);
        }
        if !std::mem::replace(&mut self.is_patient, true) {
            let own = self.own.clone();
            self.tasks.begin(async move {
                own.sleep(PATIENCE * clients as u32).await;
                own.tell(Event::Accept(listener));
            });
        }
    }

    pub fn accept(&mut self, listener: usize) {
        self.is_patient = false;
        loop {
            match self.listeners.get(listener).map(Listener::accept) {
                Some(Ok(stream)) => {
                    self.admit(stream, self.listeners[listener].is_admin);
                    if self.options.rows.is_some() {
                        return self.come(listener);
                    }
                }
                Some(Err(error)) if error.kind() == ErrorKind::WouldBlock => return,
                Some(Err(_)) => {
                    // There are too many open files, or the connection has ended
                    let own = self.own.clone();
                    return self.tasks.begin(async move {
                        own.sleep(PAUSE).await;
                        own.tell(Event::Accept(listener));
                    });
                }
                None => return,
            }
        }
    }

    /// Takes a connection in, if it may connect and there is a place for it.
    fn admit(&mut self, mut stream: Box<dyn Stream>, is_admin: bool) {
        let peer = stream.peer();
        let user = if is_admin { shares::ADMINISTRATOR } else { self.shares.user(peer.user) };
        let allowed = &self.options.allow_uid;
        if !allowed.is_empty() && !peer.is_owner() && !peer.user.is_some_and(|user| allowed.contains(&user)) {
            self.counts.not_allowed += 1;
            return self.turn_away(stream, BAD_REQUEST);
        }
        if !self.may_connect(user) || self.counts.connections >= u64::from(ADMINISTRATOR) - 1 {
            self.counts.turned_away += 1;
            return self.turn_away(stream, TOO_MANY);
        }
        self.counts.connections += 1;
        let number = self.counts.connections;
        let own = if self.options.shared { SHARED } else { number as u32 };
        let name = if is_admin { ADMINISTRATOR } else { own };
        *self.names.entry(name).or_default() += 1;
        self.shares.add(user, CONNECTION);
        let entry = self.clients.vacant_entry();
        let token = Token(CLIENT + entry.key());
        if self.poll.registry().register(&mut *stream, token, Interest::READABLE).is_ok() {
            let heard = self.counts.bytes_in;
            let client = entry.insert(Client::new(stream, token, name, peer, user, self.now));
            (client.number, client.is_admin, client.heard) = (number, is_admin, heard);
        }
    }

    /// Whether a user may have one more connection. One of another user may be closed for that.
    fn may_connect(&mut self, user: usize) -> bool {
        let other = match self.shares.of(user, CONNECTION) {
            Share::Left => return true,
            Share::TakenFrom(other) => other,
            Share::None => return false,
        };
        let clients = self.connected().filter(|(_, client)| client.user == other);
        let idlest = clients.min_by_key(|(_, client)| (client.in_flight > 0, client.heard)).map(|(place, _)| place);
        idlest.into_iter().for_each(|place| self.cut(place));
        self.counts.taken_clients += u64::from(idlest.is_some());
        idlest.is_some()
    }

    /// Whether a client may have one more of a kind. If no session is left for its user, the idlest of a user that has
    /// more is stopped for that, or else the idlest of the one of its own user's connections that has most, which must
    /// have at least two more than this one.
    pub fn may_open(&mut self, place: usize, kind: Kind) -> bool {
        let client = &self.clients[place];
        let (user, has) = (client.user, client.counts[kind as usize]);
        let idlest = match self.shares.of(user, kind as usize) {
            Share::Left => return true,
            Share::TakenFrom(other) => self.things.idlest_session(|session| session.user == other),
            Share::None if kind == Kind::Session => {
                let richest = self.things.richest(user).filter(|(_, most)| *most >= has + 2);
                richest.and_then(|(number, _)| self.things.idlest_session(|session| session.client == number))
            }
            Share::None => None,
        };
        idlest.into_iter().for_each(|key| self.stop(key));
        self.counts.taken_sessions += u64::from(idlest.is_some());
        idlest.is_some()
    }

    /// Stops a session of a client, which the program stops before all that is still to be sent.
    pub fn stop(&mut self, key: (Kind, u64)) {
        if let Some(number) = self.close(key) {
            let body = body_of(STOP, &key.1.to_be_bytes());
            let run = Run::new(Asker::Own(Rc::default()), number, Request::of(&body), self.now);
            self.program.send(&body, run);
        }
    }

    /// Removes what has ended. Returns the number of its client.
    pub fn close(&mut self, key: (Kind, u64)) -> Option<u32> {
        let thing = self.things.close(key)?;
        if let Some(client) = self.clients.get_mut(thing.place).filter(|client| client.number == thing.client) {
            client.counts[key.0 as usize] -= 1;
        }
        self.shares.remove(thing.user, key.0 as usize);
        Some(thing.number)
    }

    pub fn take_from_client(&mut self, place: usize, event: &Readiness) {
        let Some(client) = self.clients.get_mut(place) else { return };
        if event.is_writable() && !client.output.is_empty() {
            self.queues.outs.push(place);
        }
        if event.is_readable() || event.is_read_closed() || event.is_error() {
            client.may_read(event.is_read_closed() || event.is_error());
            self.read(place);
        }
    }

    /// Reads from a client, if it may send more now.
    pub fn read(&mut self, place: usize) {
        let Some(client) = self.clients.get_mut(place) else { return };
        if client.phase == Phase::Leaving {
            return self.discard(place);
        }
        if self.is_closing || !client.is_to_be_read() {
            return;
        }
        let was_whole = client.first_frame().is_some();
        match client.read(&mut self.piece) {
            Ok(Some(0)) => {}
            Ok(Some(count)) => {
                client.came_at = self.now;
                if !was_whole {
                    client.since = self.now;
                }
                self.came(place, count);
            }
            Ok(None) => {
                client.phase = Phase::Ended;
                self.backups.stop_of(place);
                self.queue(place);
            }
            Err(_) => self.cut(place),
        }
        if self.clients.get(place).is_some_and(Client::is_to_be_read) {
            self.queues.again.push(place);
        }
    }

    /// Drops what a client sends that is leaving. Its connection is closed at the end of that.
    fn discard(&mut self, place: usize) {
        let client = &mut self.clients[place];
        loop {
            match client.read(&mut self.piece) {
                Ok(Some(0)) => return,
                Ok(Some(_)) => client.input.clear(),
                _ => return self.cut(place),
            }
        }
    }

    /// Counts bytes that came. If all clients together have too many waiting, the one with the most is closed.
    fn came(&mut self, place: usize, count: usize) {
        self.counts.bytes_in += count as u64;
        self.clients[place].heard = self.counts.bytes_in;
        self.requests_held += count;
        if self.requests_held > REQUESTS_OF_ALL {
            self.counts.cut += 1;
            let most = self.connected().max_by_key(|(_, client)| client.input.len()).map(|(place, _)| place);
            most.into_iter().for_each(|place| self.cut(place));
        }
        if self.clients.get(place).is_some_and(Client::is_connected) {
            self.answer_at_once(place);
            self.queue(place);
        }
    }

    /// Lets a client wait for its turn, if it doesn't yet.
    pub fn queue(&mut self, place: usize) {
        if let Some(client) = self.clients.get_mut(place).filter(|client| !client.is_queued) {
            client.is_queued = true;
            self.queues.turns.push_back(Some(place));
        }
    }

    /// Writes a client's replies. Then it may go on, or has ended.
    pub fn write(&mut self, place: usize) {
        let Some(client) = self.clients.get_mut(place) else { return };
        client.is_written = false;
        let held = client.output.len();
        let written = client.write(self.poll.registry());
        let taken = held - client.output.len();
        let (has_waiting, watches) = (!client.input.is_empty(), client.watches > 0);
        self.counts.bytes_out += taken as u64;
        self.replies_held -= taken;
        if written.is_err() {
            return self.cut(place);
        }
        if taken > 0 && has_waiting {
            self.queue(place);
        }
        if watches {
            self.catch_up(place);
        }
        self.end_where_done(place);
    }

    /// Sends a reply or a message to a client with the next write.
    pub fn put(&mut self, place: usize, reply: &[u8]) {
        let client = &mut self.clients[place];
        if client.is_connected() {
            client.put(reply);
            self.replies_held += HEAD + reply.len();
            if !std::mem::replace(&mut client.is_written, true) {
                self.queues.outs.push(place);
            }
        }
    }

    /// Closes a connection whose client has ended its requests, if it has all replies.
    pub fn end_where_done(&mut self, place: usize) {
        let Some(client) = self.clients.get(place).filter(|client| client.phase == Phase::Ended) else { return };
        if client.in_flight == 0 && client.output.is_empty() && client.first_frame().is_none() {
            self.cut(place);
        }
    }

    /// Closes a connection at once.
    pub fn cut(&mut self, place: usize) {
        self.leave(place, Phase::Gone);
        let Some(client) = self.clients.get_mut(place) else { return };
        client.phase = Phase::Gone;
        client.stream = None;
        self.replies_held -= client.output.len();
        client.output.clear();
        self.forget(place);
    }

    /// Gives a client no more than the replies that are being written to it, for the time of grace.
    pub fn kill(&mut self, place: usize) {
        self.leave(place, Phase::Leaving);
        self.queues.outs.push(place);
        let (own, number, grace) = (self.own.clone(), self.clients[place].number, self.options.grace);
        self.tasks.begin(async move {
            own.sleep(grace).await;
            own.tell(Event::Abort { place, number });
        });
    }

    /// A client takes no more part: from here on it asks for nothing and gets nothing. The program is told so, if it is
    /// the last one of its number.
    fn leave(&mut self, place: usize, phase: Phase) {
        let Some(client) = self.clients.get_mut(place).filter(|client| client.is_connected()) else { return };
        client.phase = phase;
        self.requests_held -= client.input.len();
        client.input.clear();
        client.watches = 0;
        let (name, user) = (client.name, client.user);
        self.backups.stop_of(place);
        self.watches.end(place);
        self.shares.remove(user, CONNECTION);
        let others = self.names.entry(name).or_default();
        *others -= 1;
        if *others > 0 {
            return;
        }
        self.names.remove(&name);
        if !self.options.leave {
            self.clients[place].awaits_end = true;
            self.endings += 1;
            let run = Run::new(Asker::End(place), name, Request::of(&[]), self.now);
            self.program.send(&[], run);
        }
    }

    /// Gives the place of a client back that is gone, once the program has answered all.
    pub fn forget(&mut self, place: usize) {
        let Some(client) = self.clients.get(place) else { return };
        if client.phase == Phase::Gone && client.in_flight == 0 && !client.awaits_end {
            self.clients.remove(place);
        }
    }
}
