//! Copies of the folder that clients ask for, made while other requests go on, each of a checkpoint of its own.

use std::ffi::OsStr;
use std::io::Read;
use std::os::unix::ffi::OsStrExt;
use std::process::{Child, Stdio};

use mio::unix::pipe::Receiver;
use mio::{Interest, Token};
use serde_json::{json, Map, Value};
use slab::Slab;

use crate::folder_work;
use crate::gateway::{Gateway, COPY};
use crate::household::Event;
use crate::protocol::*;

const STOPPED: &str = "the copy was stopped: its client has left, or the gateway ends";

/// A copy for the client in a place with a number: the process that makes it, what that has said, and how many bytes
/// are copied, of how many. It is stopped by the end of its process's input.
struct Copy {
    place: usize,
    number: u64,
    path: Vec<u8>,
    is_stopped: bool,
    work: Option<(Child, Receiver)>,
    said: Vec<u8>,
}

impl Copy {
    fn stop(&mut self) {
        self.is_stopped = true;
        if let Some((child, _)) = &mut self.work {
            child.stdin = None;
        }
    }

    /// The numbers in the last whole line, or the reason why the copy isn't made.
    fn last_line(&self) -> String {
        let text = String::from_utf8_lossy(&self.said);
        let whole = text.rfind('\n').map_or("", |end| &text[..end]);
        whole.rsplit('\n').next().unwrap_or_default().to_string()
    }
}

#[derive(Default)]
pub struct Backups(Slab<Copy>);

impl Backups {
    pub fn len(&self) -> usize {
        self.0.len()
    }

    /// How far the copies are, by their paths.
    pub fn reached(&self) -> Value {
        let of = |copy: &Copy| {
            let numbers: Vec<u64> = copy.last_line().split(' ').flat_map(str::parse).collect();
            let number = |place| numbers.get(place).copied().unwrap_or(0);
            json!({"done": number(0), "total": number(1)})
        };
        let told = self.0.iter().map(|(_, copy)| (String::from_utf8_lossy(&copy.path).into_owned(), of(copy)));
        Value::Object(told.collect::<Map<_, _>>())
    }

    pub fn stop(&mut self) {
        self.0.iter_mut().for_each(|(_, copy)| copy.stop());
    }

    /// Stops the copy for a client, since nobody may be waiting for it any more.
    pub fn stop_of(&mut self, place: usize) {
        self.0.iter_mut().filter(|(_, copy)| copy.place == place).for_each(|(_, copy)| copy.stop());
    }
}

impl Gateway {
    /// Begins a copy at a path. After it the client gets its answer and goes on.
    pub fn back_up(&mut self, place: usize, path: &[u8]) {
        let number = self.await_task(place, BACKUP);
        if self.options.dir.is_none() {
            return self.answer_backup(place, number, "a store in memory has no folder to copy");
        }
        // If the client's requests have ended, nobody may be waiting for it
        let is_stopped = self.clients[place].phase == crate::client::Phase::Ended;
        let copy = Copy { place, number, path: path.into(), is_stopped, work: None, said: Vec::new() };
        let (own, copy) = (self.own.clone(), self.backups.0.insert(copy));
        self.tasks.begin(async move {
            let is_made = own.checkpoint().await;
            own.tell(Event::Copy { copy, is_made });
        });
    }

    /// Begins a copy whose checkpoint was made.
    pub fn copy(&mut self, copy: usize, is_made: bool) {
        if !is_made {
            return self.copied(copy, "the store has refused the checkpoint that was to be copied");
        }
        if self.backups.0[copy].is_stopped {
            return self.copied(copy, STOPPED);
        }
        if let Err(error) = self.begin_work(copy) {
            self.copied(copy, &error.to_string());
        }
    }

    fn begin_work(&mut self, copy: usize) -> std::io::Result<()> {
        let Some(folder) = &self.options.dir else { return Ok(()) };
        let words = ["copy".as_ref(), folder.as_os_str(), OsStr::from_bytes(&self.backups.0[copy].path)];
        let mut child = folder_work::command(words).stdin(Stdio::piped()).stdout(Stdio::piped()).spawn()?;
        let mut said = Receiver::from(child.stdout.take().expect("a pipe"));
        said.set_nonblocking(true)?;
        self.poll.registry().register(&mut said, Token(COPY + copy), Interest::READABLE)?;
        self.backups.0[copy].work = Some((child, said));
        Ok(())
    }

    /// A copy has said how far it is, or has ended.
    pub fn copy_has_said(&mut self, number: usize) {
        let Some(copy) = self.backups.0.get_mut(number) else { return };
        let Some((child, said)) = &mut copy.work else { return };
        if said.read_to_end(&mut copy.said).is_err() {
            // There is no more now. Only the last line counts
            let last = copy.said.iter().rposition(|byte| *byte == b'\n').unwrap_or(0);
            let before = copy.said[..last].iter().rposition(|byte| *byte == b'\n').unwrap_or(0);
            copy.said.drain(..before);
            return;
        }
        let is_done = child.wait().is_ok_and(|status| status.success());
        let why = if is_done { String::new() } else { copy.last_line() };
        self.copied(number, &why);
    }

    /// Answers with the result of a copy. A Sweep may have waited for it.
    fn copied(&mut self, copy: usize, why: &str) {
        let Copy { place, number, .. } = self.backups.0.remove(copy);
        self.answer_backup(place, number, why);
        self.places().into_iter().for_each(|place| self.queue(place));
    }

    fn answer_backup(&mut self, place: usize, number: u64, why: &str) {
        self.answer_task(place, number, &[&[BACKUP | REPLY], why.as_bytes()].concat());
    }
}
