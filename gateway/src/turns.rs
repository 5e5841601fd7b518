//! The scheduler: all clients with waiting requests, and the gateway itself, take turns, and the program has at most a
//! few heavy requests before it.

use crate::client::{first_frame, Phase};
use crate::failure::tell;
use crate::gateway::Gateway;
use crate::household::Event;
use crate::program::{Asker, Run, ADMINISTRATOR};
use crate::protocol::*;
use crate::shares::{self, Share};

/// The bytes of replies that one client may leave untaken, with those to come at their longest, and the same of all.
/// Beyond the second each client may have one request at a time.
const REPLIES_OF_CLIENT: usize = 4 << 20;
pub const REPLIES_OF_ALL: usize = 96 << 20;

/// What follows a turn: nothing, another turn, or one when the program is idle, before which nobody gets one.
#[derive(PartialEq)]
enum Next {
    Done,
    More,
    Idle,
}

/// Who answers a request: the program, nobody yet, the gateway with a refusal or by itself, or one of its tasks.
enum Verdict {
    Pass,
    Wait,
    Refuse([u8; 2]),
    Administer,
    Sweep,
    BackUp,
}

impl Gateway {
    /// Whether the program may get more now.
    pub fn may_give(&self) -> bool {
        let is_open = self.program.weight < MOST_WEIGHT && !self.program.is_full();
        is_open && !(self.queues.waits_for_idle && self.program.weight > 0)
    }

    /// Gives turns as long as the program may have more before it.
    pub fn give(&mut self) {
        while let Some((body, reply)) = self.own.next(true) {
            self.ask(body, Asker::Own(reply));
        }
        if self.own.next_weight().is_some() && !std::mem::replace(&mut self.queues.own_is_queued, true) {
            self.queues.turns.push_back(None);
        }
        while self.may_give() {
            let Some(turn) = self.queues.turns.pop_front() else { break };
            let next = match turn {
                Some(place) => self.take_turn(place),
                None => self.take_own_turn(),
            };
            self.queues.waits_for_idle = next == Next::Idle;
            match next {
                Next::Done => self.is_out_of_turns(turn),
                Next::More => self.queues.turns.push_back(turn),
                Next::Idle => self.queues.turns.push_front(turn),
            }
        }
    }

    fn is_out_of_turns(&mut self, turn: Option<usize>) {
        match turn.map(|place| self.clients.get_mut(place)) {
            Some(Some(client)) => client.is_queued = false,
            Some(None) => {}
            None => self.queues.own_is_queued = false,
        }
        turn.into_iter().for_each(|place| self.end_where_done(place));
    }

    /// Sends a request of the gateway's own.
    fn ask(&mut self, body: Vec<u8>, asker: Asker) {
        let run = Run::new(asker, ADMINISTRATOR, Request::of(&body), self.now);
        if let Some(kind) = run.opens() {
            self.shares.add(shares::ADMINISTRATOR, kind as usize);
        }
        self.program.send(&body, run);
    }

    fn take_own_turn(&mut self) -> Next {
        match self.own.next_weight() {
            Some(weight) if weight > TURN_WEIGHT && self.program.weight > 0 => Next::Idle,
            Some(_) => {
                if let Some((body, reply)) = self.own.next(false) {
                    self.ask(body, Asker::Own(reply));
                }
                if self.own.next_weight().is_some() {
                    Next::More
                } else {
                    Next::Done
                }
            }
            None => Next::Done,
        }
    }

    fn take_turn(&mut self, place: usize) -> Next {
        let Some(client) = self.clients.get_mut(place) else { return Next::Done };
        if !client.is_connected() || self.is_closing || client.task.is_some() || client.needs_room {
            return Next::Done;
        }
        let input = std::mem::take(&mut client.input);
        let (passed, next) = self.pass(place, &input);
        let client = &mut self.clients[place];
        client.input = input;
        client.forget(passed);
        self.requests_held -= passed;
        if passed > 0 {
            client.since = client.came_at;
        }
        if client.is_to_be_read() {
            self.queues.again.push(place);
        }
        next
    }

    /// Passes a client's requests on, up to the limit of one turn. Returns the bytes of those that have gone.
    fn pass(&mut self, place: usize, waiting: &[u8]) -> (usize, Next) {
        let (mut at, mut weight, mut room) = (0, 0, self.room(place));
        while let Some(length) = first_frame(&waiting[at..]) {
            if weight >= TURN_WEIGHT {
                return (at, Next::More);
            }
            let body = waiting[at + HEAD..].get(..length).unwrap_or_default();
            let mut request = Request::of(body);
            let verdict = if length > LONGEST_BODY {
                Verdict::Refuse(TOO_LARGE)
            } else {
                self.verdict(place, &mut request, body, room)
            };
            let is_asked = matches!(verdict, Verdict::Pass | Verdict::Sweep);
            match verdict {
                Verdict::Wait => return (at, Next::Done),
                _ if is_asked && request.weight > TURN_WEIGHT && self.program.weight > 0 => return (at, Next::Idle),
                Verdict::Pass => self.send(place, request, body),
                _ if self.clients[place].in_flight > 0 => return (at, Next::Done),
                _ => {
                    self.do_itself(place, body, verdict);
                    if length > LONGEST_BODY {
                        self.clients[place].phase = Phase::Ended;
                        return (waiting.len(), Next::Done);
                    }
                    return (at + HEAD + length, Next::Done);
                }
            }
            at += HEAD + length;
            weight += request.weight;
            room = room.saturating_sub(request.room);
        }
        (at, Next::Done)
    }

    /// The bytes of replies that a client may ask for now. One request is always allowed if no reply is untaken or to
    /// come, but for a Read of so much that there is no memory for it.
    fn room(&self, place: usize) -> usize {
        let held = self.clients[place].replies_held();
        let own = REPLIES_OF_CLIENT.saturating_sub(held);
        let room = REPLIES_OF_ALL.saturating_sub(self.replies_held).min(own);
        if held == 0 {
            room.max(READ_ROOM)
        } else {
            room
        }
    }

    /// Sends a client's request to the program.
    fn send(&mut self, place: usize, request: Request, body: &[u8]) {
        let client = &mut self.clients[place];
        // What only the administrator may ask of the program is asked in its name, if the gateway lets this client do
        // so, and so are raw reads of locks and records, by which clients find out what has become of a commit.
        let is_admin = match request.code {
            RAW => !(self.has_admin && reads_data(body)),
            code => !self.has_admin && is_for_admin(code),
        };
        let number = if is_admin { ADMINISTRATOR } else { client.name };
        let mut run = Run::new(Asker::Client(place), number, request, client.since);
        if let Some(kind) = run.opens() {
            client.counts[kind as usize] += 1;
            self.shares.add(client.user, kind as usize);
        }
        if request.code == COMMIT {
            run.commit = Some(body.into());
        }
        if matches!(request.code, SET | DELETE | COMMIT) {
            self.own.writes.note(body);
        }
        if let Some(thing) =
            request.names.and_then(|key| self.things.by_name.get_mut(&key)).filter(|thing| thing.number == number)
        {
            thing.asked = self.program.sent;
        }
        client.in_flight += 1;
        client.asked += 1;
        client.room += request.room;
        self.replies_held += request.room;
        self.counts.requests[request.code as usize] += 1;
        // A body of the number alone would say that the client is gone
        self.program.send(if body.is_empty() { &[0] } else { body }, run);
    }

    /// Who answers a request that needs so much room for its reply. The program answers what is out of form.
    fn verdict(&mut self, place: usize, request: &mut Request, body: &[u8], room: usize) -> Verdict {
        let client = &self.clients[place];
        let is_allowed = client.is_admin || !self.has_admin;
        let is_swept = body.len() == 1 && self.options.dir.is_some() && !self.own.has_log.get();
        if self.options.rows.is_some() && !is_for_shared_rows(request.code) {
            return Verdict::Refuse(BAD_REQUEST);
        }
        if request.room > room {
            let is_too_much = request.room > READ_ROOM && client.replies_held() == 0;
            return if is_too_much { Verdict::Refuse(NO_MEMORY) } else { Verdict::Wait };
        }
        if let Some(kind) = request.opens {
            return self.verdict_on_opening(place, kind, body);
        }
        match request.code {
            SET | DELETE if !self.watches.is_empty() => {
                self.note_write(place, body);
                Verdict::Pass
            }
            SWEEP if is_allowed && self.backups.len() > 0 => Verdict::Wait,
            SWEEP if is_allowed && is_swept => Verdict::Sweep,
            BACKUP if !is_allowed || !client.is_trusted() => Verdict::Refuse(BAD_REQUEST),
            BACKUP if body.len() > 1 => Verdict::BackUp,
            _ if is_administered(body) => Verdict::Administer,
            code => {
                if is_for_admin(code) && !is_allowed {
                    // The program refuses it, without any work
                    request.weight = 1;
                }
                Verdict::Pass
            }
        }
    }

    /// Who answers a request that opens something: the gateway refuses it beyond the limits of client and user.
    fn verdict_on_opening(&mut self, place: usize, kind: Kind, body: &[u8]) -> Verdict {
        let client = &self.clients[place];
        let has_left = client.counts[kind as usize] < self.options.most_open()[kind as usize];
        let is_given = has_left && matches!(self.shares.of(client.user, kind as usize), Share::Left);
        if is_given || !has_form(body) || (has_left && self.may_open(place, kind)) {
            return Verdict::Pass;
        }
        Verdict::Refuse(TOO_MANY)
    }

    /// Does what the first waiting request asks of the gateway itself. The client's next request waits for another
    /// round, so that no other client waits for many.
    fn do_itself(&mut self, place: usize, body: &[u8], verdict: Verdict) {
        let code = body.first().copied().unwrap_or(0);
        self.counts.requests[code as usize] += 1;
        let client = &mut self.clients[place];
        client.asked += 1;
        self.queues.later.push(place);
        let reply = match verdict {
            Verdict::Sweep => return self.begin_sweep(place),
            Verdict::BackUp => return self.back_up(place, &body[1..]),
            Verdict::Refuse(refusal) => refusal.into(),
            _ => self.administer(place, body),
        };
        self.counts.note(&reply);
        self.put(place, &reply);
    }

    /// Answers a client's first request without a turn, so also while the program is busy, if it is about the gateway.
    pub fn answer_at_once(&mut self, place: usize) {
        let client = &self.clients[place];
        let body = client.first_frame().and_then(|length| client.input.get(HEAD..HEAD + length));
        let Some(body) = body.filter(|body| is_administered(body)).map(<[u8]>::to_vec) else { return };
        if client.in_flight == 0 && self.room(place) > 0 {
            self.requests_held -= HEAD + body.len();
            self.clients[place].forget(HEAD + body.len());
            self.do_itself(place, &body, Verdict::Administer);
        }
    }

    /// The reply to a request about the gateway itself, after what it asks for is done.
    fn administer(&mut self, place: usize, body: &[u8]) -> Vec<u8> {
        let client = &self.clients[place];
        match body[0] {
            STATISTICS => self.statistics(place),
            CLIENTS if client.is_trusted() => self.listing(),
            KILL if client.is_admin => vec![KILL | REPLY, self.kill_number(be64(&body[1..]), place).into()],
            // Commits of other servers over the same rows don't pass here
            WATCH if self.options.rows.is_none() => {
                let reply = self.watches.begin(place, body, self.things.opened);
                self.clients[place].watches += usize::from(reply[0] != REFUSED);
                reply
            }
            _ => BAD_REQUEST.into(),
        }
    }

    /// Ends the connection of the client with a number, if it isn't the one that asks. Returns whether there is one.
    fn kill_number(&mut self, number: u64, asks: usize) -> bool {
        let other = self.connected().find(|(place, client)| client.number == number && *place != asks);
        let Some((place, _)) = other else { return false };
        self.counts.killed_clients += 1;
        let process = self.clients[asks].peer.process.map_or("None".into(), |process| process.to_string());
        tell(format_args!("process {process} has killed client {number}"));
        self.kill(place);
        true
    }

    // Requests that a task answers.

    /// Has a client wait for a task's answer to its last request.
    pub fn await_task(&mut self, place: usize, code: u8) -> u64 {
        let client = &mut self.clients[place];
        client.task = Some((code, client.since));
        client.in_flight += 1;
        client.number
    }

    fn begin_sweep(&mut self, place: usize) {
        let (own, number) = (self.own.clone(), self.await_task(place, SWEEP));
        self.tasks.begin(async move {
            let reply = own.sweep().await;
            own.tell(Event::Answer { place, number, reply });
        });
    }

    /// Gives a client the answer of a task, if it still waits for it.
    pub fn answer_task(&mut self, place: usize, number: u64, reply: &[u8]) {
        let Some(client) = self.clients.get_mut(place).filter(|client| client.number == number) else { return };
        if let Some((code, since)) = client.task.take() {
            client.in_flight -= 1;
            self.counts.note(reply);
            self.note_time(place, code, since);
            self.put(place, reply);
            self.queue(place);
            self.forget(place);
        }
    }
}

/// Whether a body is about the gateway itself, so that it needs no turn.
fn is_administered(body: &[u8]) -> bool {
    match body {
        [STATISTICS] | [CLIENTS] | [WATCH, ..] => true,
        [KILL, name @ ..] => name.len() == 8,
        _ => false,
    }
}
