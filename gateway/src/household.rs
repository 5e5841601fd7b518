//! The gateway's own requests, and the tasks that make them: room, checkpoints, and the ends of what the dead had open.
//! `splits` has one more.
//!
//! A task is a future that waits for replies, for times and for what the gateway reaches. It is tried again after each
//! of them.

use std::cell::{Cell, RefCell};
use std::collections::{BTreeSet, VecDeque};
use std::future::{poll_fn, Future};
use std::pin::Pin;
use std::rc::Rc;
use std::task::{Context, Poll, Waker};
use std::time::{Duration, Instant};

use crate::failure::tell;
use crate::protocol::*;
use crate::splits::Writes;
use crate::things::opened;

/// The most tablets of a store, which are numbered from 1.
pub const MOST_TABLETS: u32 = 1024;

/// The visits of a collector in one request: so few that no client waits long. With a log the program makes no more.
const VISITS: u32 = 4;

/// After so many answers a server of several publishes its floor, and so far apart it is to do so at most.
const ANSWERS_BETWEEN_FLOORS: u64 = 4096;
const FIRST_FLOOR: Duration = Duration::from_secs(1);
const BETWEEN_FLOORS: Duration = Duration::from_secs(300);

/// How often a refused request is repeated, and the pause before that.
const TRIES: u32 = 5;
const PAUSE: Duration = Duration::from_millis(200);

/// The place of a reply that is awaited.
pub type Reply = Rc<RefCell<Option<Vec<u8>>>>;

/// What a task tells the gateway.
pub enum Event {
    /// The program has answered for the first time.
    Ready,
    /// The answer to the last request of the client in this place, which has this number.
    Answer {
        place: usize,
        number: u64,
        reply: Vec<u8>,
    },
    /// There is room in the memtables again.
    RoomMade,
    /// It is time to look for what is idle.
    Look,
    /// It is time to accept connections again.
    Accept(usize),
    /// The checkpoint of a copy was made, or refused.
    Copy {
        copy: usize,
        is_made: bool,
    },
    /// It is time to close the connection of the client in this place, which has this number.
    Abort {
        place: usize,
        number: u64,
    },
    /// The end: all clients get their last replies, are cut, and the program gets no more.
    CloseClients,
    CutClients,
    CloseInput {
        is_kept: bool,
    },
}

/// What the tasks wait for besides: how much the program has before it, the clients that are there, those whose end it
/// hasn't answered, and the copies that are being made.
#[derive(Clone, Copy, Default, PartialEq)]
pub struct State {
    pub asked: usize,
    pub clients: usize,
    pub endings: usize,
    pub copies: usize,
}

/// The requests that wait, and what the tasks and the gateway tell each other.
#[derive(Default)]
pub struct Household {
    pub has_log: Cell<bool>,
    /// How many commits of clients the program has answered.
    pub commits: Cell<u64>,
    /// How many requests the program has answered.
    pub answered: Cell<u64>,
    pub writes: Writes,
    pub state: Cell<State>,
    pub events: RefCell<Vec<Event>>,
    waiting: RefCell<VecDeque<(Vec<u8>, Reply)>>,
    urgent: RefCell<VecDeque<(Vec<u8>, Reply)>>,
    inherited: [RefCell<VecDeque<u64>>; 2],
    cleaners: Cell<usize>,
    is_making_room: Cell<bool>,
    times: RefCell<BTreeSet<Instant>>,
}

impl Household {
    /// The first request that waits for a turn, or that waits for none.
    pub fn next(&self, is_urgent: bool) -> Option<(Vec<u8>, Reply)> {
        if is_urgent {
            self.urgent.borrow_mut().pop_front()
        } else {
            self.waiting.borrow_mut().pop_front()
        }
    }

    /// The weight of the first request that waits for a turn.
    pub fn next_weight(&self) -> Option<u32> {
        self.waiting.borrow().front().map(|(body, _)| Request::of(body).weight)
    }

    /// When a task waits for a time next.
    pub fn next_time(&self) -> Option<Instant> {
        self.times.borrow().first().copied()
    }

    /// Takes over a cleaner or a collector, to end it.
    pub fn inherit(&self, kind: Kind, name: u64) {
        let place = usize::from(kind == Kind::Collector);
        self.inherited[place].borrow_mut().push_back(name);
        self.cleaners.set(self.cleaners.get() + 1 - place);
    }

    pub fn tell(&self, event: Event) {
        self.events.borrow_mut().push(event);
    }

    /// Asks in a turn, and returns the reply.
    pub async fn ask(&self, body: Vec<u8>) -> Vec<u8> {
        let reply = Reply::default();
        self.waiting.borrow_mut().push_back((body, reply.clone()));
        poll_fn(|_| taken(&reply)).await
    }

    /// Asks right behind what the program has, and returns the reply.
    pub fn ask_next(&self, code: u8) -> impl Future<Output = Vec<u8>> {
        let reply = Reply::default();
        self.urgent.borrow_mut().push_back((vec![code], reply.clone()));
        poll_fn(move |_| taken(&reply))
    }

    pub async fn sleep(&self, time: Duration) {
        self.until(Some(time), |_| false).await;
    }

    /// Waits until something holds, or until so much time has passed.
    pub async fn until(&self, time: Option<Duration>, holds: impl Fn(&Household) -> bool) {
        let end = time.and_then(|time| Instant::now().checked_add(time));
        self.times.borrow_mut().extend(end);
        let is_over = || holds(self) || end.is_some_and(|end| end <= Instant::now());
        poll_fn(|_| if is_over() { Poll::Ready(()) } else { Poll::Pending }).await;
    }

    /// Writes the memtable of each tablet to a file. If a tablet has too many files, they are merged into one. A
    /// checkpoint after that empties the log, if there is one.
    pub async fn make_room(&self) {
        while self.is_making_room.replace(true) {
            self.sleep(PAUSE).await;
        }
        for tablet in 1..=MOST_TABLETS {
            let reply = self.ask(body_of(MINOR, &tablet.to_be_bytes())).await;
            if reply == TOO_MANY_FILES {
                self.ask(body_of(MAJOR, &tablet.to_be_bytes())).await;
            } else if reply == UNKNOWN_TABLET {
                break;
            }
        }
        if self.has_log.get() {
            self.ask(vec![CHECKPOINT]).await;
        }
        self.is_making_room.set(false);
    }

    /// Merges all files of each tablet into one.
    async fn join_files(&self) {
        for tablet in 1..=MOST_TABLETS {
            if self.ask(body_of(MAJOR, &tablet.to_be_bytes())).await == UNKNOWN_TABLET {
                return;
            }
        }
    }

    /// Makes a checkpoint, and returns whether it was made. If a tablet has too many files, they are joined first, and
    /// what nothing names any more is removed, unless a copy is being made. A refusal is told.
    pub async fn checkpoint(&self) -> bool {
        let mut reply = self.ask(vec![CHECKPOINT]).await;
        if reply == TOO_MANY_FILES {
            self.join_files().await;
            if self.ask(vec![CHECKPOINT]).await == CHECKPOINT_MADE && self.state.get().copies == 0 {
                self.sweep_behind_checkpoint().await;
            }
            reply = self.ask(vec![CHECKPOINT]).await;
        }
        if reply != CHECKPOINT_MADE {
            tell(format_args!("a checkpoint was refused: {}", reply[1]));
        }
        reply == CHECKPOINT_MADE
    }

    /// Makes a Sweep for a client of a folder without a log, right behind a checkpoint. Returns its reply, or that of the
    /// checkpoint if it is refused: the sweep might remove files that the last root names.
    pub async fn sweep(&self) -> Vec<u8> {
        let reply = self.ask_next(CHECKPOINT).await;
        if reply == CHECKPOINT_MADE {
            self.sweep_behind_checkpoint().await
        } else {
            reply
        }
    }

    /// Makes a Sweep, and a checkpoint right behind it, since the program may merge files after the one before.
    async fn sweep_behind_checkpoint(&self) -> Vec<u8> {
        let (swept, checkpoint) = (self.ask_next(SWEEP), self.ask_next(CHECKPOINT));
        let reply = swept.await;
        checkpoint.await;
        reply
    }

    /// Makes checkpoints, with such a pause before each. With a log a Sweep follows, which leaves what the root names, unless
    /// a copy of the folder is being made.
    pub async fn keep(self: Rc<Self>, pause: Duration) {
        loop {
            self.sleep(pause).await;
            if self.checkpoint().await && self.has_log.get() && self.state.get().copies == 0 {
                self.ask(vec![SWEEP]).await;
            }
        }
    }

    /// Ends what is inherited of a kind, one after the other.
    pub async fn end_inherited(self: Rc<Self>, kind: Kind) {
        let place = usize::from(kind == Kind::Collector);
        loop {
            self.until(None, |own| !own.inherited[place].borrow().is_empty()).await;
            let name = self.inherited[place].borrow_mut().pop_front();
            let _ = self.end(kind, name.unwrap_or_default()).await;
            self.cleaners.set(self.cleaners.get() + place - 1);
        }
    }

    /// Collects old versions, again and again: once clients have made so many commits since the last collection, or as
    /// many as that one had visits, if they were more. So there is no more than a visit for each commit, on the whole.
    pub async fn collect(self: Rc<Self>, after: u64) {
        let (mut due, mut open) = (after, None);
        loop {
            let before = self.commits.get();
            self.until(None, |own| own.commits.get() - before >= due).await;
            if open.is_none() {
                open = opened(Kind::Collector, &self.ask(vec![COLLECT_BEGIN]).await);
            }
            let Some(name) = open else { continue };
            if let Some(whole) = self.end(Kind::Collector, name).await {
                (due, open) = (after.max(whole * u64::from(VISITS)), None);
            }
        }
    }

    /// Has a server of several publish its floor now and then, which it does by itself after so many answers. So one
    /// that has nothing to do doesn't keep old versions for all. As long as it has enough to do, it isn't asked.
    pub async fn publish(self: Rc<Self>) {
        let mut pause = FIRST_FLOOR;
        loop {
            let before = self.answered.get();
            self.sleep(pause).await;
            pause = BETWEEN_FLOORS;
            if self.answered.get() - before >= ANSWERS_BETWEEN_FLOORS {
                continue;
            }
            // A server knows no later stamp than its last one, and without sessions its floor is the next
            if let Some(start) = opened(Kind::Session, &self.ask(vec![BEGIN]).await) {
                self.ask(body_of(STOP, &start.to_be_bytes())).await;
            }
            for _ in self.answered.get() - before..ANSWERS_BETWEEN_FLOORS {
                // A body that is no request
                self.ask(vec![0]).await;
            }
        }
    }

    /// Takes the steps of a cleaner or a collector until it has ended, and returns how many left more to do. One that is
    /// refused too often in a row is left open (`None`).
    async fn end(&self, kind: Kind, name: u64) -> Option<u64> {
        let mut body = body_of(if kind == Kind::Cleaner { CLEAN_STEP } else { COLLECT_STEP }, &name.to_be_bytes());
        if kind == Kind::Collector {
            body.extend_from_slice(&VISITS.to_be_bytes());
        }
        let (mut tries, mut whole) = (0, 0);
        while tries < TRIES {
            let reply = self.ask(body.clone()).await;
            tries = if reply[0] == REFUSED { tries + 1 } else { 0 };
            match (kind, reply[0], reply[1]) {
                (_, REFUSED, refusal) if refusal == kind.unknown() => return Some(whole),
                (_, REFUSED, _) if reply == MEMTABLE_FULL => self.make_room().await,
                (_, REFUSED, _) => self.sleep(PAUSE).await,
                (Kind::Collector, _, 2) => self.unblock(&reply[2..]).await,
                (Kind::Collector, _, 3) | (Kind::Cleaner, _, 2..) => return Some(whole),
                _ => whole += 1,
            }
        }
        None
    }

    /// Clears the cell at which a collector is blocked.
    async fn unblock(&self, fields: &[u8]) {
        let cell = Fields(fields).cell().expect("the cell at which a collector is blocked");
        let mut body = vec![CLEAN_BEGIN];
        put_cell(&mut body, &cell);
        let reply = self.ask(body).await;
        match reply[..2] {
            [REFUSED, _] => self.sleep(PAUSE).await,
            [_, 1] => drop(Box::pin(self.end(Kind::Cleaner, be64(&reply[2..10]))).await),
            _ => {}
        }
    }

    /// The end: the last replies leave, sessions end, a folder gets a checkpoint, and the program gets no more. Nobody
    /// delays it for longer than each time of grace.
    pub async fn shut(self: Rc<Self>, has_folder: bool, grace: Duration) {
        self.until(Some(grace), |own| own.state.get().copies == 0).await;
        self.until(None, |own| own.state.get().asked == 0).await;
        self.tell(Event::CloseClients);
        self.until(Some(grace), |own| own.state.get().clients == 0).await;
        self.tell(Event::CutClients);
        self.until(Some(grace), |own| own.state.get().endings + own.cleaners.get() == 0).await;
        let is_kept = !has_folder || self.checkpoint().await || self.has_log.get();
        self.tell(Event::CloseInput { is_kept });
    }
}

/// A reply that has come.
fn taken(reply: &Reply) -> Poll<Vec<u8>> {
    reply.borrow_mut().take().map_or(Poll::Pending, Poll::Ready)
}

/// The tasks that run.
#[derive(Default)]
pub struct Tasks(Vec<Pin<Box<dyn Future<Output = ()>>>>);

impl Tasks {
    pub fn begin(&mut self, task: impl Future<Output = ()> + 'static) {
        self.0.push(Box::pin(task));
    }

    /// Tries all tasks. So nobody has to be woken.
    pub fn run(&mut self, own: &Household) {
        let now = Instant::now();
        self.0.retain_mut(|task| task.as_mut().poll(&mut Context::from_waker(Waker::noop())).is_pending());
        own.times.borrow_mut().retain(|time| *time > now);
    }
}
