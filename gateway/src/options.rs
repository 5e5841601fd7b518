//! The words of the command line.

use std::path::PathBuf;
use std::time::Duration;

use clap::{CommandFactory, Parser};
use nix::unistd::{Gid, Group, Uid, User};

/// The format that a folder's files have where nothing is said to the program: it takes no word for it.
const UNSUMMED: &str = "2";

/// Serves one store to many clients, with the frames of tabletd. @FILE stands for the words of a file.
// Those words, and the client's defaults in front of all, are put in by `duqishom serve`.
#[derive(Parser)]
#[command(name = "duqishom-gateway", bin_name = "duqishom serve", version, args_override_self = true)]
pub struct Options {
    /// the Unix socket for clients
    #[arg(long, value_name = "PATH")]
    pub socket: Option<PathBuf>,
    /// the mode of the clients' socket (600, or 660 with --group)
    #[arg(long, value_name = "MODE", value_parser = octal)]
    mode: Option<u32>,
    /// the group of the clients' socket, by number or name
    #[arg(long, value_name = "GROUP", value_parser = group, requires = "socket")]
    pub group: Option<u32>,
    /// a user that may connect, by number or name, beside root and the gateway's own: may be repeated
    #[arg(long, value_name = "UID", value_parser = user, conflicts_with = "tcp")]
    pub allow_uid: Vec<u32>,
    /// a socket that compactions, splits and the like are for alone
    #[arg(long, value_name = "PATH")]
    pub admin: Option<PathBuf>,
    /// the mode of that socket (600)
    #[arg(long, value_name = "MODE", value_parser = octal, default_value = "600", hide_default_value = true)]
    pub admin_mode: u32,
    /// a port of 127.0.0.1, which every user of the machine may open
    #[arg(long, value_name = "PORT", value_parser = clap::value_parser!(u16).range(1..))]
    pub tcp: Option<u16>,
    /// the tabletd to start
    #[arg(long, default_value = "tabletd", hide_default_value = true)]
    pub program: PathBuf,
    /// the folder of the store: a new store in memory where none is named
    #[arg(long)]
    pub dir: Option<PathBuf>,
    /// have the program ask for its rows through the pipes in this folder, at whose other ends is a bridge
    #[arg(long, value_name = "FOLDER", conflicts_with_all = ["dir", "admin", "log"])]
    pub rows: Option<PathBuf>,
    /// have the folder get a log: a new one gets a log where nothing is said
    #[arg(long, requires = "dir", overrides_with = "no_log")]
    log: bool,
    /// have a new folder get no log
    #[arg(long)]
    no_log: bool,
    /// format of the folder's files from now on: 3 has checksums, which a new one gets where nothing is said; 2 none
    #[arg(long, value_name = "F", requires = "dir")]
    format: Option<String>,
    /// bytes of a log before a checkpoint empties it
    #[arg(long, value_name = "L")]
    log_bytes: Option<String>,
    /// entries of a memtable before it is compacted
    #[arg(long, value_name = "N")]
    flush: Option<String>,
    /// bytes of a memtable's entries before it is compacted too
    #[arg(long, value_name = "B")]
    flush_bytes: Option<String>,
    /// files of a tablet before newest ones are merged
    #[arg(long, value_name = "M")]
    merge: Option<String>,
    /// blocks of each file that stay in memory
    #[arg(long, value_name = "C")]
    cache: Option<String>,
    /// bytes of the writes that all sessions may buffer
    #[arg(long, value_name = "S")]
    session_bytes: Option<String>,
    /// wait until no other program has the folder, and serve it then
    #[arg(long, requires = "dir")]
    pub standby: bool,
    /// the time between two checkpoints (none)
    #[arg(long, value_name = "SECONDS", value_parser = seconds, default_value = "0", hide_default_value = true)]
    pub checkpoint: Duration,
    /// collect old versions after so many commits, and again after as many as that took visits (10000; 0: never)
    #[arg(long, value_name = "COMMITS", default_value = "10000", hide_default_value = true)]
    pub collect: u64,
    /// split a tablet of a folder that holds more bytes (268435456; 0: never)
    #[arg(long, value_name = "BYTES", default_value = "268435456", hide_default_value = true)]
    pub split_bytes: u64,
    /// leave what a dead client had open as it is
    #[arg(long)]
    pub leave: bool,
    /// let clients use each other's sessions, cleaners and collectors
    #[arg(long)]
    pub shared: bool,
    /// connections at a time (1000)
    #[arg(long, value_name = "N", default_value = "1000", hide_default_value = true)]
    pub clients: usize,
    /// active sessions of a connection (64)
    #[arg(long, value_name = "N", default_value = "64", hide_default_value = true)]
    sessions: usize,
    /// open cleaners of a connection (64)
    #[arg(long, value_name = "N", default_value = "64", hide_default_value = true)]
    cleaners: usize,
    /// open collectors of a connection (4)
    #[arg(long, value_name = "N", default_value = "4", hide_default_value = true)]
    collectors: usize,
    /// connections of a user (any number)
    #[arg(long, value_name = "N", default_value = "0", hide_default_value = true)]
    pub user_clients: usize,
    /// sessions of a user (any number)
    #[arg(long, value_name = "N", default_value = "0", hide_default_value = true)]
    pub user_sessions: usize,
    /// stop a session that has been idle for this long (never)
    #[arg(long, value_name = "SECONDS", value_parser = seconds, default_value = "0", hide_default_value = true)]
    pub idle_session: Duration,
    /// close a client without a session that has been idle for this long (never)
    #[arg(long, value_name = "SECONDS", value_parser = seconds, default_value = "0", hide_default_value = true)]
    pub idle_client: Duration,
    /// tell on the standard error of requests that took so long (none)
    #[arg(long, value_name = "SECONDS", value_parser = seconds, default_value = "0", hide_default_value = true)]
    pub slow: Duration,
    /// keep all frames there for tablet_audit
    #[arg(long, value_name = "FOLDER")]
    pub record: Option<PathBuf>,
    /// time for last replies, at the end or of a client that is killed (5)
    #[arg(long, value_name = "SECONDS", value_parser = seconds, default_value = "5", hide_default_value = true)]
    pub grace: Duration,
    /// have the program merge files, and remove those that nothing needs, in a folder
    #[arg(long, hide = true)]
    upkeep: bool,
}

impl Options {
    /// The options of the command line, which ends the process if they are refused.
    pub fn read() -> Options {
        let options = Options::parse();
        if options.standby && options.socket.is_none() && options.tcp.is_none() {
            let why = "--standby needs --socket or --tcp, at which it listens once it serves";
            Options::command().error(clap::error::ErrorKind::MissingRequiredArgument, why).exit();
        }
        options
    }

    /// The mode of the clients' socket.
    pub fn mode(&self) -> u32 {
        self.mode.unwrap_or(if self.group.is_some() { 0o660 } else { 0o600 })
    }

    /// Whether the store has a log, once its program has opened it.
    pub fn has_log(&self) -> bool {
        let is_there = |folder: &PathBuf| ["commit.log", "commit.id"].iter().any(|name| folder.join(name).exists());
        self.log || self.dir.as_ref().is_some_and(is_there)
    }

    /// The most sessions, cleaners and collectors of a client.
    pub fn most_open(&self) -> [usize; 3] {
        [self.sessions, self.cleaners, self.collectors]
    }

    /// The program's words, beside those of its clients. Some only go with a folder.
    pub fn program_words(&self) -> Vec<String> {
        let mut words = Vec::new();
        for (name, folder) in [("--dir", &self.dir), ("--rows", &self.rows)] {
            words.extend(folder.iter().flat_map(|folder| [name.into(), folder.to_string_lossy().into_owned()]));
        }
        let flags = [("--log", self.log), ("--upkeep", self.upkeep && self.dir.is_some())];
        words.extend(flags.into_iter().filter(|flag| flag.1).map(|flag| flag.0.to_string()));
        let format = self.format.clone().filter(|format| format != UNSUMMED);
        let given = [
            ("--format", &format),
            ("--log-bytes", &self.log_bytes),
            ("--flush", &self.flush),
            ("--flush-bytes", &self.flush_bytes),
            ("--merge", &self.merge),
            ("--cache", &self.cache),
            ("--session-bytes", &self.session_bytes),
        ];
        for (name, value) in given {
            words.extend(value.iter().flat_map(|value| [name.to_string(), value.clone()]));
        }
        words
    }
}

/// A number in octal digits, as a mode is written.
fn octal(text: &str) -> Result<u32, String> {
    u32::from_str_radix(text, 8).map_err(|error| error.to_string())
}

/// A time in seconds.
fn seconds(text: &str) -> Result<Duration, String> {
    let number = text.parse().map_err(|_| "it is no number".to_string())?;
    Duration::try_from_secs_f64(number).map_err(|error| error.to_string())
}

/// A user, by its number or its name.
fn user(text: &str) -> Result<u32, String> {
    let found = || User::from_name(text).ok().flatten().map(|user| Uid::as_raw(user.uid));
    text.parse().ok().or_else(found).ok_or_else(|| "there is no such user".to_string())
}

/// A group, by its number or its name.
fn group(text: &str) -> Result<u32, String> {
    let found = || Group::from_name(text).ok().flatten().map(|group| Gid::as_raw(group.gid));
    text.parse().ok().or_else(found).ok_or_else(|| "there is no such group".to_string())
}
