//! A standby: it waits until no program has the store's folder, and may serve then.

use std::fs::OpenOptions;
use std::io::{self, ErrorKind};
use std::os::fd::AsRawFd;
use std::os::unix::fs::OpenOptionsExt;
use std::path::Path;
use std::thread::sleep;
use std::time::Duration;

use nix::fcntl::{flock, FlockArg, OFlag};
use sd_notify::NotifyState;
use signal_hook_mio::v0_8::Signals;

use crate::failure::tell;
use crate::folder_work;

/// The pause between two looks at the lock.
const PAUSE: Duration = Duration::from_millis(100);

/// Whether a program has a folder, on this machine or on another one that shares its file system.
pub fn is_in_use(folder: &Path) -> io::Result<bool> {
    let flags = OFlag::O_NOFOLLOW | OFlag::O_CLOEXEC;
    match OpenOptions::new().read(true).write(true).custom_flags(flags.bits()).open(folder.join("lock")) {
        Ok(lock) => Ok(flock(lock.as_raw_fd(), FlockArg::LockExclusiveNonblock).is_err()),
        Err(error) if error.kind() == ErrorKind::NotFound => Ok(false),
        Err(error) => Err(error),
    }
}

/// Waits a little, and until no program has a folder. Returns whether that is so before a signal comes.
pub fn wait_for(folder: &Path, signals: &mut Signals) -> io::Result<bool> {
    let mut has_told = false;
    loop {
        sleep(PAUSE);
        if signals.pending().next().is_some() {
            return Ok(false);
        }
        if !is_in_use(folder)? {
            let _ = sd_notify::notify(false, &[NotifyState::Status("")]);
            return Ok(true);
        }
        if !std::mem::replace(&mut has_told, true) {
            let holder = folder_work::holder_of(folder);
            let by = if holder.is_empty() { holder } else { format!(" by {holder}") };
            tell(format_args!("stands by, for {} is in use{by}", folder.display()));
            let _ = sd_notify::notify(false, &[NotifyState::Ready, NotifyState::Status("stands by")]);
        }
    }
}
