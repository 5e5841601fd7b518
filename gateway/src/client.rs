//! A connection: its requests wait for their turns, and its replies until it takes them.

use std::io::{ErrorKind, Read, Write};
use std::time::Instant;

use bytes::{Buf, BytesMut};
use mio::{Interest, Registry, Token};

use crate::protocol::{be32, HEAD, LONGEST_BODY};
use crate::sockets::{Peer, Stream};

/// The waiting bytes from which on a client isn't read any more, if a whole frame is among them.
const READ_AHEAD: usize = 32_768;

/// The room beyond which an empty buffer is given back.
const KEPT: usize = 65_536;

/// How far a connection is. One that has ended its input, or may send no more, gets all its replies. One that is
/// leaving only gets those that are being written to it. What is gone is only there until the program has answered.
#[derive(Clone, Copy, PartialEq, Eq)]
pub enum Phase {
    Open,
    Ended,
    Leaving,
    Gone,
}

pub struct Client {
    /// The connection, which is closed when it is dropped.
    pub stream: Option<Box<dyn Stream>>,
    token: Token,
    /// Its number, which no other connection gets, and the one by which the program knows it.
    pub number: u64,
    pub name: u32,
    pub is_admin: bool,
    pub peer: Peer,
    pub user: usize,
    pub phase: Phase,
    pub input: BytesMut,
    pub output: BytesMut,
    /// How many of its requests are unanswered, and the most bytes of their replies.
    pub in_flight: usize,
    pub room: usize,
    /// How many sessions, cleaners and collectors it has, or is opening.
    pub counts: [usize; 3],
    /// Whether it waits for a turn, and there for the program to be idle.
    pub is_queued: bool,
    /// The operation that a task of the gateway is to answer, and since when it waits.
    pub task: Option<(u8, Instant)>,
    /// Whether it waits for room in the memtables.
    pub needs_room: bool,
    pub is_written: bool,
    /// Whether the program is still to answer that the client is gone.
    pub awaits_end: bool,
    pub watches: usize,
    is_readable: bool,
    has_hung_up: bool,
    is_waiting_to_write: bool,
    has_said_end: bool,
    pub began: Instant,
    /// When bytes came last, and when the first waiting request came.
    pub came_at: Instant,
    pub since: Instant,
    /// How many bytes had come from all clients when its last ones came, and how many requests it has sent.
    pub heard: u64,
    pub asked: u64,
    pub has_taken: bool,
    pub idle_looks: u32,
}

impl Client {
    pub fn new(stream: Box<dyn Stream>, token: Token, name: u32, peer: Peer, user: usize, now: Instant) -> Client {
        Client {
            stream: Some(stream),
            token,
            number: 0,
            name,
            is_admin: false,
            peer,
            user,
            phase: Phase::Open,
            input: BytesMut::new(),
            output: BytesMut::new(),
            in_flight: 0,
            room: 0,
            counts: [0; 3],
            is_queued: false,
            task: None,
            needs_room: false,
            is_written: false,
            awaits_end: false,
            watches: 0,
            is_readable: false,
            has_hung_up: false,
            is_waiting_to_write: false,
            has_said_end: false,
            began: now,
            came_at: now,
            since: now,
            heard: 0,
            asked: 0,
            has_taken: false,
            idle_looks: 0,
        }
    }

    /// Whether it is connected, and takes part.
    pub fn is_connected(&self) -> bool {
        matches!(self.phase, Phase::Open | Phase::Ended)
    }

    /// Whether it is an administrator, or a process of the gateway's own user or of root.
    pub fn is_trusted(&self) -> bool {
        self.is_admin || self.peer.is_owner()
    }

    /// The length of the first waiting body, if its frame is whole, or LONGEST_BODY + 1 if it is too long ever to be.
    pub fn first_frame(&self) -> Option<usize> {
        first_frame(&self.input)
    }

    /// Bytes may be there, and the end of the input if the other end has hung up.
    pub fn may_read(&mut self, has_hung_up: bool) {
        self.is_readable = true;
        self.has_hung_up |= has_hung_up;
    }

    /// Whether bytes may be there and are wanted: if few wait, or if no frame is whole.
    pub fn is_to_be_read(&self) -> bool {
        let is_wanted = || self.input.len() < READ_AHEAD || self.first_frame().is_none();
        self.is_readable && self.phase == Phase::Open && is_wanted()
    }

    /// Reads once. Returns how many bytes came, or None if the client has ended its input.
    pub fn read(&mut self, piece: &mut [u8]) -> std::io::Result<Option<usize>> {
        match self.stream.as_mut().map_or(Ok(0), |stream| stream.read(piece)) {
            Ok(0) => Ok(None),
            Ok(count) => {
                self.is_readable = count == piece.len() || self.has_hung_up;
                self.input.extend_from_slice(&piece[..count]);
                Ok(Some(count))
            }
            Err(error) if error.kind() == ErrorKind::WouldBlock => {
                self.is_readable = false;
                Ok(Some(0))
            }
            Err(error) if error.kind() == ErrorKind::Interrupted => Ok(Some(0)),
            Err(error) => Err(error),
        }
    }

    /// Adds a reply.
    pub fn put(&mut self, reply: &[u8]) {
        self.output.extend_from_slice(&(reply.len() as u32).to_be_bytes());
        self.output.extend_from_slice(reply);
    }

    /// Writes what the client takes now.
    pub fn write(&mut self, registry: &Registry) -> std::io::Result<()> {
        let Some(stream) = &mut self.stream else { return Ok(()) };
        let mut is_waiting = false;
        while !self.output.is_empty() && !is_waiting {
            match stream.write(&self.output) {
                Ok(count) => {
                    self.output.advance(count);
                    self.has_taken = true;
                }
                Err(error) if error.kind() == ErrorKind::WouldBlock => is_waiting = true,
                Err(error) if error.kind() == ErrorKind::Interrupted => {}
                Err(error) => return Err(error),
            }
        }
        if is_waiting != self.is_waiting_to_write {
            self.is_waiting_to_write = is_waiting;
            let interest = if is_waiting { Interest::READABLE | Interest::WRITABLE } else { Interest::READABLE };
            registry.reregister(&mut **stream, self.token, interest)?;
        }
        if self.phase == Phase::Leaving && self.output.is_empty() && !self.has_said_end {
            self.has_said_end = true;
            stream.end_writing();
        }
        give_back(&mut self.output);
        Ok(())
    }

    /// Drops this many bytes of requests.
    pub fn forget(&mut self, count: usize) {
        self.input.advance(count);
        give_back(&mut self.input);
    }

    /// The bytes of replies that are to come, or that it hasn't taken.
    pub fn replies_held(&self) -> usize {
        self.room + self.output.len()
    }
}

/// The length of the first body, if its frame is whole, or LONGEST_BODY + 1 if it is too long ever to be.
pub fn first_frame(waiting: &[u8]) -> Option<usize> {
    let length = be32(waiting.get(..HEAD)?).min(LONGEST_BODY + 1);
    (length > LONGEST_BODY || waiting.len() >= HEAD + length).then_some(length)
}

/// Gives back the room of a large buffer that is empty.
fn give_back(buffer: &mut BytesMut) {
    if buffer.is_empty() && buffer.capacity() > KEPT {
        *buffer = BytesMut::new();
    }
}
