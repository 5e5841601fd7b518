//! Connections for which there is no place, or of users that may not connect: each is refused, and then closed.
//!
//! The first request of one gets the refusal, and so does the connection if it sends none for a while. It is read until
//! the client disconnects, since data sent to a closed connection may destroy the reply.

use std::io::{ErrorKind, Read, Write};
use std::time::{Duration, Instant};

use mio::{Interest, Token};

use crate::gateway::{Gateway, TURNED_AWAY};
use crate::sockets::Stream;

/// The most such connections, and the time that each has to send a request, and then to take its reply. If there are
/// more, the oldest is closed.
const MOST: usize = 32;
const TIME: Duration = Duration::from_secs(1);

pub struct TurnedAway {
    number: u64,
    stream: Box<dyn Stream>,
    refusal: Option<[u8; 2]>,
    /// When it is refused, or closed if it is refused already.
    pub due: Instant,
}

impl TurnedAway {
    /// Refuses it, once, and says that no more will come. Returns whether that wasn't done before.
    fn refuse(&mut self, now: Instant) -> bool {
        let Some([refused, number]) = self.refusal.take() else { return false };
        // If it doesn't take the few bytes, it is gone
        let _ = self.stream.write(&[0, 0, 0, 2, refused, number]);
        self.stream.end_writing();
        self.due = now + TIME;
        true
    }
}

impl Gateway {
    pub fn turn_away(&mut self, mut stream: Box<dyn Stream>, refusal: [u8; 2]) {
        let number = self.counts.turned_away + self.counts.not_allowed;
        let token = Token(TURNED_AWAY + number as usize);
        if self.poll.registry().register(&mut *stream, token, Interest::READABLE).is_err() {
            return;
        }
        self.turned_away.push_back(TurnedAway { number, stream, refusal: Some(refusal), due: self.now + TIME });
        if self.turned_away.len() > MOST {
            if let Some(mut oldest) = self.turned_away.pop_front() {
                oldest.refuse(self.now);
            }
        }
    }

    /// The first request of a connection has come, or more, or its end.
    pub fn turned_away_is_readable(&mut self, number: u64) {
        let Some(place) = self.turned_away.iter().position(|each| each.number == number) else { return };
        let mut piece = [0; 4096];
        loop {
            match self.turned_away[place].stream.read(&mut piece) {
                Ok(count) if count > 0 => drop(self.turned_away[place].refuse(self.now)),
                Err(error) if error.kind() == ErrorKind::WouldBlock => return,
                _ => return drop(self.turned_away.remove(place)),
            }
        }
    }

    /// Refuses or closes those for which it is time.
    pub fn look_at_turned_away(&mut self) {
        let now = self.now;
        self.turned_away.retain_mut(|each| each.due > now || each.refuse(now));
    }
}
