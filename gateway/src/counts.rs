//! What the gateway counts since its start, and its statistics and its list of clients as JSON texts.

use std::collections::BTreeMap;
use std::fs;
use std::time::Instant;

use nix::unistd::{sysconf, SysconfVar};
use serde_json::{json, Map, Value};

use crate::client::Client;
use crate::gateway::Gateway;
use crate::protocol::*;
use crate::shares::CONNECTION;

/// The clients that are listed at most, so that a reply has no more bytes than a frame of a client.
const MOST_LISTED: usize = 4000;

/// The refusals, by their numbers from 1 on.
const REFUSALS: [&str; 23] = [
    "UnknownSession",
    "WrongPhase",
    "BadRow",
    "BadColumn",
    "BadValue",
    "TooManyWrites",
    "TooManySessions",
    "EmptyCommit",
    "UnknownCleaner",
    "UnknownCollector",
    "UnknownTablet",
    "BadSplit",
    "UnknownServer",
    "BadCount",
    "MemtableFull",
    "TooManyFiles",
    "FileTooLarge",
    "Exhausted",
    "Device",
    "NoMemory",
    "Damaged",
    "BadRequest",
    "FrameTooLarge",
];

/// The name of an operation.
pub fn operation(code: u8) -> Option<&'static str> {
    const NAMES: [&str; 19] = [
        "Begin",
        "Get",
        "Set",
        "Step",
        "Stop",
        "CleanBegin",
        "CleanStep",
        "CollectBegin",
        "CollectStep",
        "Minor",
        "Merge",
        "Major",
        "Split",
        "Move",
        "Sweep",
        "OracleRestart",
        "Raw",
        "Checkpoint",
        "Delete",
    ];
    const OTHERS: [(u8, &str); 9] = [
        (SCAN, "Scan"),
        (COMMIT, "Commit"),
        (READ, "Read"),
        (STATUS, "Status"),
        (STATISTICS, "Statistics"),
        (BACKUP, "Backup"),
        (CLIENTS, "Clients"),
        (KILL, "Kill"),
        (WATCH, "Watch"),
    ];
    let other = || OTHERS.iter().find(|other| other.0 == code).map(|other| other.1);
    NAMES.get((code as usize).wrapping_sub(1)).copied().or_else(other)
}

/// Requests of clients by the bytes of their operations, refusals by their numbers, and the rest by the names in the
/// statistics.
#[derive(Default)]
pub struct Counts {
    pub requests: Vec<u64>,
    refusals: Vec<u64>,
    conflicts: u64,
    lost: u64,
    pub checkpoints: u64,
    pub splits: u64,
    pub bytes_in: u64,
    pub bytes_out: u64,
    pub connections: u64,
    pub turned_away: u64,
    pub not_allowed: u64,
    pub cut: u64,
    pub idle_clients: u64,
    pub idle_sessions: u64,
    pub taken_clients: u64,
    pub taken_sessions: u64,
    pub killed_clients: u64,
}

impl Counts {
    pub fn new() -> Counts {
        Counts { requests: vec![0; 256], refusals: vec![0; 256], ..Counts::default() }
    }

    /// Counts a reply to a client, if it is a refusal, or says that a commit comes to nothing.
    pub fn note(&mut self, reply: &[u8]) {
        match reply {
            [REFUSED, number] => self.refusals[*number as usize] += 1,
            [0x84 | 0xB2, 2, ..] => self.conflicts += 1,
            [0x84, 5, ..] => self.lost += 1,
            _ => {}
        }
    }

    /// The requests of clients, by operation.
    fn requests(&self) -> Map<String, Value> {
        let mut told = Map::new();
        let mut others = 0;
        for (code, count) in (0..=255).zip(self.requests.iter().copied()) {
            match operation(code) {
                Some(name) => drop(told.insert(name.into(), count.into())),
                None => others += count,
            }
        }
        told.insert("other".into(), others.into());
        told
    }

    fn refusals(&self) -> Map<String, Value> {
        REFUSALS.iter().zip(&self.refusals[1..]).map(|(name, count)| (name.to_string(), (*count).into())).collect()
    }
}

/// The memory of a process in bytes and its processor time in seconds, zeros if it has ended.
fn process(number: u32) -> Value {
    let read = |name| fs::read_to_string(format!("/proc/{number}/{name}")).unwrap_or_default();
    let unit = |name| sysconf(name).ok().flatten().unwrap_or(1) as u64;
    let field = |text: &str, place| text.split(' ').nth(place).and_then(|field| field.parse().ok()).unwrap_or(0);
    let (stat, memory) = (read("stat"), field(&read("statm"), 1) * unit(SysconfVar::PAGE_SIZE));
    let times = stat.rsplit(')').next().map_or(0, |times| field(times, 12) + field(times, 13));
    let seconds = times as f64 / unit(SysconfVar::CLK_TCK) as f64;
    json!({"process": number, "memory": memory, "processor_seconds": seconds})
}

fn seconds(since: Instant, now: Instant) -> f64 {
    ((now - since).as_secs_f64() * 1e3).round() / 1e3
}

impl Gateway {
    /// The statistics for the client in this place. Users, processes and copies are only told if it is trusted.
    pub fn statistics(&mut self, place: usize) -> Vec<u8> {
        self.latencies.look(self.now);
        let (counts, client) = (&self.counts, &self.clients[place]);
        let is_trusted = client.is_trusted();
        let [sessions, cleaners, collectors] = self.things.counts;
        let mut told = json!({
            "seconds": seconds(self.began, self.now),
            "requests": counts.requests(),
            "bytes": {"from_clients": counts.bytes_in, "to_clients": counts.bytes_out},
            "clients": {
                "now": self.connected().count(),
                "ever": counts.connections,
                "turned_away": counts.turned_away,
                "not_allowed": counts.not_allowed,
                "closed_for_memory": counts.cut,
            },
            "ended": {
                "idle_clients": counts.idle_clients,
                "idle_sessions": counts.idle_sessions,
                "taken_clients": counts.taken_clients,
                "taken_sessions": counts.taken_sessions,
                "killed_clients": counts.killed_clients,
            },
            "watches": {"open": self.watches.len(), "changes": self.watches.changes, "unnamed": self.watches.unnamed},
            "shared": u8::from(client.is_admin || self.options.shared),
            "open": {"sessions": sessions, "cleaners": cleaners, "collectors": collectors},
            "oldest_session_seconds": self.things.oldest_session().map_or(0.0, |began| seconds(began, self.now)),
            "held": {"requests": self.requests_held, "replies": self.replies_held, "asked": self.program.runs.len()},
            "latency_seconds": self.latencies.lately(),
            "request_seconds": self.latencies.buckets(),
            "refusals": counts.refusals(),
            "conflicts": {"Conflict": counts.conflicts, "Lost": counts.lost},
            "checkpoints": counts.checkpoints,
            "splits": counts.splits,
            "program": process(self.program.process()),
            "gateway": process(std::process::id()),
        });
        if let (true, Some(told), Value::Object(more)) = (is_trusted, told.as_object_mut(), self.told_to_trusted()) {
            told.extend(more);
        }
        [&[STATISTICS | REPLY], told.to_string().as_bytes()].concat()
    }

    /// The connections and sessions of each user, the user, connections and sessions of each process, and the copies.
    fn told_to_trusted(&self) -> Value {
        let mut processes: BTreeMap<String, (u32, usize, usize)> = BTreeMap::new();
        for (_, client) in self.connected() {
            if let (Some(process), Some(user)) = (client.peer.process, client.peer.user) {
                let found = processes.entry(process.to_string()).or_default();
                *found = (user, found.1 + 1, found.2 + client.counts[Kind::Session as usize]);
            }
        }
        let users = || self.shares.users.iter().filter(|user| user.counts.iter().any(|count| *count > 0));
        let of_users =
            |kind: usize| users().map(|user| (user.name.clone(), json!(user.counts[kind]))).collect::<Map<_, _>>();
        let of_processes = |told: fn(&(u32, usize, usize)) -> Value| {
            processes.iter().map(|(process, found)| (process.clone(), told(found))).collect::<Map<_, _>>()
        };
        json!({
            "user_clients": of_users(CONNECTION),
            "user_sessions": of_users(Kind::Session as usize),
            "process_user": of_processes(|found| found.0.into()),
            "process_clients": of_processes(|found| found.1.into()),
            "process_sessions": of_processes(|found| found.2.into()),
            "copies": self.backups.reached(),
        })
    }

    /// The clients: those with the oldest sessions come first, and then those that are connected longest.
    pub fn listing(&self) -> Vec<u8> {
        let mut oldest: BTreeMap<u64, Instant> = BTreeMap::new();
        for ((kind, _), thing) in &self.things.by_name {
            if *kind == Kind::Session {
                let began = oldest.entry(thing.client).or_insert(thing.began);
                *began = thing.began.min(*began);
            }
        }
        let began = |client: &Client| oldest.get(&client.number).copied();
        let mut clients: Vec<&Client> = self.connected().map(|(_, client)| client).collect();
        clients.sort_by_key(|client| (began(client).is_none(), began(client), client.number));
        let listed: Vec<Value> =
            clients.iter().take(MOST_LISTED).map(|client| self.told_of(client, began(client))).collect();
        let told = json!({"clients": listed, "more": clients.len() - listed.len()});
        [&[CLIENTS | REPLY], told.to_string().as_bytes()].concat()
    }

    fn told_of(&self, client: &Client, oldest: Option<Instant>) -> Value {
        json!({
            "client": client.number,
            "process": client.peer.process,
            "user": client.peer.user,
            "admin": client.is_admin,
            "seconds": seconds(client.began, self.now),
            "sessions": client.counts[Kind::Session as usize],
            "oldest_session_seconds": oldest.map(|began| seconds(began, self.now)),
            "requests": client.asked,
            "requests_held": client.input.len(),
            "replies_held": client.output.len(),
        })
    }
}
