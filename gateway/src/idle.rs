//! Sessions and clients that are idle for too long: these sessions are stopped, and these clients closed.
//!
//! Everything is looked at again and again, and of each is counted in how many looks in a row it was idle. So time in
//! which the gateway itself stands still doesn't count.

use std::time::Duration;

use crate::client::Client;
use crate::gateway::Gateway;
use crate::protocol::Kind;
use crate::things::Thing;

/// How often everything is looked at within the shorter of the two times.
const LOOKS: u32 = 4;

/// The pause between two looks, 0 for none, the idle looks that are allowed, and the counts of requests and of bytes of
/// the last look.
pub struct Idle {
    pub pause: Duration,
    session_looks: Option<u32>,
    client_looks: Option<u32>,
    sent: u64,
    heard: u64,
}

impl Idle {
    /// After these times a session is stopped, and a client without one closed: 0 for never.
    pub fn new(session: Duration, client: Duration) -> Idle {
        let pause = [session, client].into_iter().filter(|time| !time.is_zero()).min().unwrap_or_default() / LOOKS;
        // One more than is in the time, since it may begin right before a look
        let looks =
            |time: Duration| (!time.is_zero()).then(|| (time.as_secs_f64() / pause.as_secs_f64()).ceil() as u32);
        Idle { pause, session_looks: looks(session), client_looks: looks(client), sent: 0, heard: 0 }
    }
}

impl Gateway {
    /// Looks at each client and each session once.
    pub fn look(&mut self) {
        let (heard, most) = (self.idle.heard, self.idle.client_looks);
        let mut idle = Vec::new();
        for (place, client) in self.clients.iter_mut().filter(|(_, client)| client.is_connected()) {
            client.idle_looks = if is_active(client, heard) { 0 } else { client.idle_looks + 1 };
            if most.is_some_and(|most| client.idle_looks > most) && client.counts[Kind::Session as usize] == 0 {
                idle.push(place);
            }
        }
        self.counts.idle_clients += idle.len() as u64;
        idle.into_iter().for_each(|place| self.cut(place));
        self.look_at_sessions();
        (self.idle.sent, self.idle.heard) = (self.program.sent, self.counts.bytes_in);
    }

    fn look_at_sessions(&mut self) {
        let most = self.idle.session_looks;
        let sessions = self.things.by_name.iter().filter(|each| each.0 .0 == Kind::Session);
        let looks: Vec<_> = sessions.map(|(key, thing)| (*key, !self.is_in_use(key.1, thing))).collect();
        for (key, is_idle) in looks {
            let Some(session) = self.things.by_name.get_mut(&key) else { continue };
            session.idle_looks = if is_idle { session.idle_looks + 1 } else { 0 };
            if most.is_some_and(|most| session.idle_looks > most) {
                self.counts.idle_sessions += 1;
                self.stop(key);
            }
        }
    }

    /// Whether a request of a session has come since the last look, is unanswered, or may wait here.
    fn is_in_use(&self, name: u64, session: &Thing) -> bool {
        let name = name.to_be_bytes();
        let waits = |client: &Client| {
            client.idle_looks == 0
                && client.first_frame().is_some()
                && client.input.windows(8).any(|bytes| bytes == name)
        };
        session.asked >= self.idle.sent.min(self.program.answered)
            || self.connected().any(|(_, client)| client.name == session.number && waits(client))
    }
}

/// Whether a client has sent anything since so many bytes had come from all, or has taken any of its replies since the
/// last look, or waits for the gateway, or for changes.
fn is_active(client: &mut Client, heard: u64) -> bool {
    let has_taken = std::mem::take(&mut client.has_taken);
    let is_owed = client.in_flight > 0 || (client.output.is_empty() && client.first_frame().is_some());
    client.heard > heard || has_taken || is_owed || client.watches > 0
}
