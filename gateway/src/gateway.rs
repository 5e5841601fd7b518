//! The gateway's core: the clients, the program, and the traffic between them.

use std::collections::{HashMap, VecDeque};
use std::io::{self, ErrorKind};
use std::rc::Rc;
use std::time::{Duration, Instant};

use mio::event::Event as Readiness;
use mio::{Events, Interest, Poll, Token};
use signal_hook_mio::v0_8::Signals;
use slab::Slab;

use crate::backups::Backups;
use crate::client::{Client, Phase};
use crate::counts::Counts;
use crate::failure::{tell, Failure};
use crate::household::{Event, Household, State, Tasks};
use crate::idle::Idle;
use crate::latencies::Latencies;
use crate::options::Options;
use crate::program::Program;
use crate::protocol::*;
use crate::shares::{Shares, CONNECTION};
use crate::slow::Slow;
use crate::sockets::Listener;
use crate::things::Things;
use crate::turned_away::TurnedAway;
use crate::watches::Watches;

/// The size of a read of requests.
const PIECE: usize = 32_768;

/// What a token stands for: the part in its high half, and which one of it.
const SIGNALS: usize = 0;
const INPUT: usize = 1 << 32;
const OUTPUT: usize = 2 << 32;
const LISTENERS: usize = 3 << 32;
pub const CLIENT: usize = 4 << 32;
pub const TURNED_AWAY: usize = 5 << 32;
pub const COPY: usize = 6 << 32;
const PART: usize = (1 << 32) - 1;

/// The pause of the loop while everything ends.
pub const PAUSE: Duration = Duration::from_millis(10);

/// What is to be done, in this round or in the next ones.
#[derive(Default)]
pub struct Queues {
    /// The places of the clients that wait for a turn, and None for the gateway itself, if it does; and whether the first
    /// of them waits until the program is idle.
    pub turns: VecDeque<Option<usize>>,
    pub own_is_queued: bool,
    pub waits_for_idle: bool,
    /// The clients with replies to write, those to be read again, and those that get a turn in the next round.
    pub outs: Vec<usize>,
    pub again: Vec<usize>,
    pub later: Vec<usize>,
}

pub struct Gateway {
    // The connections are closed first, and the program ends last.
    pub clients: Slab<Client>,
    pub turned_away: VecDeque<TurnedAway>,
    pub listeners: Vec<Listener>,
    pub poll: Poll,
    pub options: Options,
    pub has_admin: bool,
    pub now: Instant,
    pub queues: Queues,
    /// How many clients have each of the program's numbers, if several may.
    pub names: HashMap<u32, usize>,
    pub things: Things,
    pub shares: Shares,
    pub counts: Counts,
    pub began: Instant,
    pub latencies: Latencies,
    pub slow: Slow,
    pub watches: Watches,
    pub backups: Backups,
    pub idle: Idle,
    pub own: Rc<Household>,
    pub tasks: Tasks,
    /// The bytes of waiting requests of all clients, and of their replies that wait or are to come.
    pub requests_held: usize,
    pub replies_held: usize,
    /// The clients that are gone, whose end the program hasn't answered.
    pub endings: usize,
    pub is_closing: bool,
    pub is_making_room: bool,
    /// Whether it is to accept connections a moment later.
    pub is_patient: bool,
    /// Whether the program has answered for the first time, and whether the last checkpoint was made.
    pub is_ready: bool,
    is_kept: bool,
    /// The status with which to end, and when to do so at the latest.
    end: Option<(i32, Instant)>,
    /// The room for a read of requests.
    pub piece: Box<[u8]>,
    pub program: Program,
}

impl Gateway {
    pub fn new(options: Options, clients: usize, listeners: Vec<Listener>, program: Program) -> io::Result<Gateway> {
        let has_admin = listeners.iter().any(|listener| listener.is_admin);
        let now = Instant::now();
        Ok(Gateway {
            clients: Slab::new(),
            turned_away: VecDeque::new(),
            listeners,
            poll: Poll::new()?,
            has_admin,
            now,
            queues: Queues::default(),
            names: HashMap::new(),
            things: Things::default(),
            shares: Shares::new(&options, clients, has_admin),
            counts: Counts::new(),
            began: now,
            latencies: Latencies::new(now),
            slow: Slow::new(options.slow, now),
            watches: Watches::default(),
            backups: Backups::default(),
            idle: Idle::new(options.idle_session, options.idle_client),
            own: Rc::default(),
            tasks: Tasks::default(),
            requests_held: 0,
            replies_held: 0,
            endings: 0,
            is_closing: false,
            is_making_room: false,
            is_patient: false,
            is_ready: false,
            is_kept: true,
            end: None,
            piece: vec![0; PIECE].into(),
            options,
            program,
        })
    }

    /// Serves until the end, and returns the status: 0 if everything is durable, 1 if the last checkpoint was refused,
    /// or the program's, if it has ended.
    pub fn run(&mut self, signals: &mut Signals) -> Result<i32, Failure> {
        self.poll.registry().register(signals, Token(SIGNALS), Interest::READABLE)?;
        self.program.register(self.poll.registry(), Token(INPUT), Token(OUTPUT))?;
        self.begin_tasks();
        let mut events = Events::with_capacity(1024);
        loop {
            match self.poll.poll(&mut events, self.time_to_wait()) {
                Err(error) if error.kind() != ErrorKind::Interrupted => return Err(error.into()),
                _ => self.now = Instant::now(),
            }
            self.latencies.look(self.now);
            for event in &events {
                self.take(event, signals)?;
            }
            self.go_on()?;
            match self.end {
                Some((status, at)) if self.connected().next().is_none() || self.now >= at => return Ok(status),
                _ => {}
            }
        }
    }

    fn begin_tasks(&mut self) {
        let own = self.own.clone();
        // A body that is no request
        let first = own.ask_next(0);
        self.tasks.begin(async move {
            first.await;
            own.tell(Event::Ready);
        });
        for kind in [Kind::Cleaner, Kind::Collector] {
            self.tasks.begin(self.own.clone().end_inherited(kind));
        }
        let pause = self.options.checkpoint;
        if !pause.is_zero() && self.options.dir.is_some() {
            self.tasks.begin(self.own.clone().keep(pause));
        }
        if self.options.collect > 0 {
            self.tasks.begin(self.own.clone().collect(self.options.collect));
        }
        if let (Some(folder), 1..) = (&self.options.dir, self.options.split_bytes) {
            self.tasks.begin(self.own.clone().split(folder.clone(), self.options.split_bytes));
        }
        if self.options.rows.is_some() {
            self.tasks.begin(self.own.clone().publish());
        }
        let (own, pause) = (self.own.clone(), self.idle.pause);
        if !pause.is_zero() {
            self.tasks.begin(async move {
                loop {
                    own.sleep(pause).await;
                    own.tell(Event::Look);
                }
            });
        }
    }

    /// How long nothing is to be done if nothing comes.
    fn time_to_wait(&self) -> Option<Duration> {
        let is_due = !self.queues.again.is_empty() || !self.queues.later.is_empty() || !self.queues.outs.is_empty();
        if is_due || (!self.queues.turns.is_empty() && self.may_give()) {
            return Some(Duration::ZERO);
        }
        let times = self.own.next_time().into_iter().chain(self.turned_away.iter().map(|each| each.due));
        let most = (self.is_closing || self.end.is_some()).then_some(PAUSE);
        times.map(|time| time.saturating_duration_since(self.now)).chain(most).min()
    }

    fn take(&mut self, event: &Readiness, signals: &mut Signals) -> Result<(), Failure> {
        let (part, which) = (event.token().0 & !PART, event.token().0 & PART);
        match part {
            SIGNALS => {
                if signals.pending().next().is_some() {
                    self.shut();
                }
            }
            INPUT => self.program.eased(),
            OUTPUT => self.take_replies(event.is_read_closed())?,
            LISTENERS => self.come(which),
            TURNED_AWAY => self.turned_away_is_readable(which as u64),
            COPY => self.copy_has_said(which),
            _ => self.take_from_client(which, event),
        }
        Ok(())
    }

    /// What follows from all that has come: reads, tasks, turns, writes.
    fn go_on(&mut self) -> Result<(), Failure> {
        for place in std::mem::take(&mut self.queues.again) {
            self.read(place);
        }
        for place in std::mem::take(&mut self.queues.later) {
            self.queue(place);
        }
        self.look_at_turned_away();
        let (asked, clients, copies) = (self.program.runs.len(), self.shares.totals[CONNECTION], self.backups.len());
        self.own.answered.set(self.program.answered);
        self.own.state.set(State { asked, clients, endings: self.endings, copies });
        self.tasks.run(&self.own);
        for event in self.own.events.take() {
            self.happened(event);
        }
        self.give();
        self.program.flush()?;
        for place in std::mem::take(&mut self.queues.outs) {
            self.write(place);
        }
        // Clients may have ended
        self.program.flush()
    }

    fn happened(&mut self, event: Event) {
        match event {
            Event::Ready => self.is_ready(),
            Event::Answer { place, number, reply } => self.answer_task(place, number, &reply),
            Event::RoomMade => self.room_is_made(),
            Event::Look => self.look(),
            Event::Accept(listener) => self.accept(listener),
            Event::Copy { copy, is_made } => self.copy(copy, is_made),
            Event::Abort { place, number } => {
                if self.clients.get(place).is_some_and(|client| client.number == number) {
                    self.cut(place);
                }
            }
            Event::CloseClients => self.close_clients(),
            Event::CutClients => self.places().into_iter().for_each(|place| self.cut(place)),
            Event::CloseInput { is_kept } => {
                self.is_kept = is_kept;
                self.program.close_input();
            }
        }
    }

    /// The program has opened its store: now clients may come.
    fn is_ready(&mut self) {
        self.is_ready = true;
        self.own.has_log.set(self.options.has_log());
        for (place, listener) in self.listeners.iter_mut().enumerate() {
            listener.register(self.poll.registry(), Token(LISTENERS + place)).expect("a socket that can be watched");
        }
        tell("ready");
        let _ = sd_notify::notify(false, &[sd_notify::NotifyState::Ready]);
    }

    /// Begins the end: no requests are taken any more.
    fn shut(&mut self) {
        if !std::mem::replace(&mut self.is_closing, true) {
            let _ = sd_notify::notify(false, &[sd_notify::NotifyState::Stopping]);
            self.listeners.clear();
            self.backups.stop();
            let has_folder = self.options.dir.is_some();
            self.tasks.begin(self.own.clone().shut(has_folder, self.options.grace));
        }
    }

    /// Closes all connections, each when its client has taken its replies.
    fn close_clients(&mut self) {
        for place in self.places() {
            let client = &mut self.clients[place];
            if client.is_connected() {
                client.phase = Phase::Ended;
                client.in_flight = 0;
                client.task = None;
                self.requests_held -= client.input.len();
                client.input.clear();
            }
            self.end_where_done(place);
        }
    }

    /// The program has ended: all connections close, and the status is its own, unless its input was ended here.
    pub fn program_has_ended(&mut self) -> Result<(), Failure> {
        let status = self.program.wait()?;
        let is_asked_for = self.is_closing && status.success();
        let status = if is_asked_for { i32::from(!self.is_kept) } else { self.told_of_end(status) };
        self.is_closing = true;
        self.listeners.clear();
        self.end = Some((status, self.now + self.options.grace));
        self.close_clients();
        Ok(())
    }
}
