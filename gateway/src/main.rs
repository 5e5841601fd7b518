//! A gateway: one `tabletd --clients` for many clients, over sockets, with the program's own frames.
//!
//! `docs/GATEWAY.md` describes it. The program knows whose sessions, cleaners and collectors are whose; the gateway
//! gives each connection a number, and moves bytes: `client` is a connection, `turns` decides who may send how much,
//! `program` is the other end, and `gateway` has them all. The `household` makes the gateway's own requests.

mod backups;
mod client;
mod connections;
mod counts;
mod failure;
mod folder_work;
mod gateway;
mod household;
mod idle;
mod latencies;
mod options;
mod program;
mod protocol;
mod recording;
mod replies;
mod shares;
mod slow;
mod sockets;
mod splits;
mod standby;
mod things;
mod turned_away;
mod turns;
mod watches;

use std::panic::{self, AssertUnwindSafe, PanicHookInfo};
use std::path::Path;
use std::process::ExitStatus;
use std::sync::atomic::AtomicBool;
use std::sync::Arc;

use nix::sys::resource::{getrlimit, setrlimit, Resource};
use signal_hook::consts::{SIGINT, SIGTERM, SIGXFSZ};
use signal_hook_mio::v0_8::Signals;

use crate::failure::{tell, Failure, FAILED};
use crate::gateway::Gateway;
use crate::options::Options;
use crate::program::{explained, Program};
use crate::recording::Recording;
use crate::shares::{CONNECTION, KEPT};
use crate::sockets::{listen, NoSocket};

/// The status of a gateway that can't start, and of a program that can't have its folder.
const REFUSED: i32 = 2;
const NOT_OPENED: i32 = 4;

/// The open files that the gateway needs besides one for each client: among them are the administrator's connections,
/// with a copy for each, and those that are turned away.
const FILES_BESIDE: usize = 128 + KEPT[CONNECTION];

fn main() {
    let options = Options::read();
    panic::set_hook(Box::new(tell_of_panic));
    let status = panic::catch_unwind(AssertUnwindSafe(|| serve(options))).unwrap_or(FAILED);
    std::process::exit(status);
}

/// Tells of what nothing expects, which ends the gateway.
fn tell_of_panic(panic: &PanicHookInfo) {
    let payload = panic.payload();
    let text = payload.downcast_ref::<&str>().map(ToString::to_string);
    let text = text.or_else(|| payload.downcast_ref::<String>().cloned()).unwrap_or_default();
    let place = panic.location().map(|at| {
        let file = Path::new(at.file()).file_name().unwrap_or_default();
        format!(" ({}, line {})", file.to_string_lossy(), at.line())
    });
    tell(format_args!("the gateway has failed: {text}{}", place.unwrap_or_default()));
}

/// Serves, at once or when no other program has the folder, and returns the status. A standby waits on if another one
/// is faster, or if the gateway that had the folder still has its socket.
fn serve(options: Options) -> i32 {
    let signals = Signals::new([SIGTERM, SIGINT]);
    // A file that may not grow is a failed write
    let is_ready = signal_hook::flag::register(SIGXFSZ, Arc::new(AtomicBool::new(false)));
    let mut signals = match is_ready.and(signals) {
        Ok(signals) => signals,
        Err(error) => return refused(&error.to_string()),
    };
    let Some(folder) = options.dir.clone().filter(|_| options.standby) else {
        return serve_once(options, &mut signals).unwrap_or_else(|why| refused(&why.text()));
    };
    loop {
        match standby::wait_for(&folder, &mut signals) {
            Ok(true) => {}
            Ok(false) => return 0,
            Err(error) => return refused(&error.to_string()),
        }
        match serve_once(Options::read(), &mut signals) {
            Err(NoSocket::Served(_)) => {}
            Ok(NOT_OPENED) if standby::is_in_use(&folder).unwrap_or(false) => {}
            served => return served.unwrap_or_else(|why| refused(&why.text())),
        }
    }
}

fn refused(why: &str) -> i32 {
    tell(why);
    REFUSED
}

/// Serves once, and returns the status.
fn serve_once(options: Options, signals: &mut Signals) -> Result<i32, NoSocket> {
    let clients = places(options.clients);
    let listeners = listen(&options)?;
    let recording = options.record.as_ref().map(|place| {
        folder_work::prepare_recording(place, options.dir.as_deref()).map_err(Failure)?;
        Recording::open(place)
    });
    let recording = recording.transpose().map_err(|failure| NoSocket::Failed(failure.0))?;
    let failed = |error: std::io::Error| NoSocket::Failed(format!("{}: {error}", options.program.display()));
    let program = Program::start(&options, recording).map_err(failed)?;
    let mut gateway =
        Gateway::new(options, clients, listeners, program).map_err(|error| NoSocket::Failed(error.to_string()))?;
    Ok(gateway.run(signals).unwrap_or_else(|failure| {
        tell(format_args!("the gateway has failed: {}", failure.0));
        FAILED
    }))
}

/// Raises the limit of open files, and returns for how many clients it is enough.
fn places(clients: usize) -> usize {
    let wanted = (clients + FILES_BESIDE) as u64;
    let (soft, hard) = getrlimit(Resource::RLIMIT_NOFILE).unwrap_or((wanted, wanted));
    let allowed = wanted.min(hard);
    if soft >= allowed || setrlimit(Resource::RLIMIT_NOFILE, allowed, hard).is_ok() {
        if allowed >= wanted {
            return clients;
        }
        let left = (allowed as usize).saturating_sub(FILES_BESIDE).max(1);
        tell(format_args!("{allowed} open files are the limit: at most {left} clients get a place"));
        return left;
    }
    clients
}

impl Gateway {
    /// Tells of the program's end, and returns the status for it.
    pub fn told_of_end(&self, status: ExitStatus) -> i32 {
        let (code, line) = explained(status);
        let why = match &self.options.dir {
            Some(folder) if !self.is_ready => folder_work::why_not_opened(folder, code),
            _ => String::new(),
        };
        if why.is_empty() {
            tell(line);
        } else {
            tell(format_args!("the store isn't opened (status {code}): {why}"));
        }
        code
    }
}
