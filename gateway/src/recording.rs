//! A recording: the frames that go to the program and come from it, with the clients' numbers, in two files, which
//! `tablet_audit --clients` judges. Requests are noted before the program gets them, and replies before the clients do.

use std::fs::File;
use std::io::Write;
use std::path::{Path, PathBuf};

use crate::failure::Failure;
use crate::sockets::private;

/// A file of frames.
struct Frames {
    path: PathBuf,
    file: File,
}

impl Frames {
    fn open(path: PathBuf) -> Result<Frames, Failure> {
        match private(&path) {
            Ok(file) => Ok(Frames { path, file }),
            Err(error) => Err(Failure(format!("{}: {error}", path.display()))),
        }
    }

    fn add(&mut self, bytes: &[u8]) -> Result<(), Failure> {
        self.file.write_all(bytes).map_err(|error| Failure(format!("{}: {error}", self.path.display())))
    }
}

pub struct Recording {
    requests: Frames,
    replies: Frames,
}

impl Recording {
    /// Continues the recording of a folder, which is there.
    pub fn open(folder: &Path) -> Result<Recording, Failure> {
        let (requests, replies) = (Frames::open(folder.join("requests"))?, Frames::open(folder.join("replies"))?);
        Ok(Recording { requests, replies })
    }

    pub fn note_requests(&mut self, frames: &[u8]) -> Result<(), Failure> {
        self.requests.add(frames)
    }

    pub fn note_replies(&mut self, frames: &[u8]) -> Result<(), Failure> {
        self.replies.add(frames)
    }
}
