//! The work on a folder that the Python client does for the gateway, in a process of its own: docs/FORMATS.md is known
//! there. `python3 -m duqishom serve` names the Python that is to do it.

use std::ffi::OsStr;
use std::path::Path;
use std::process::{Command, Stdio};

/// The command of some work.
pub fn command<'a>(words: impl IntoIterator<Item = &'a OsStr>) -> Command {
    let python = std::env::var_os("DUQISHOM_PYTHON").unwrap_or("python3".into());
    let mut command = Command::new(python);
    command.args(["-m", "duqishom.folder_work"]).args(words);
    command
}

/// What some work says in the end: the reason in an Err, if it isn't done.
fn said(words: &[&OsStr]) -> Result<String, String> {
    let mut command = command(words.iter().copied());
    let done = command.stdin(Stdio::null()).stderr(Stdio::inherit()).output().map_err(|error| error.to_string())?;
    let text = String::from_utf8_lossy(&done.stdout).trim_end().to_string();
    if done.status.success() {
        Ok(text)
    } else {
        Err(text)
    }
}

/// Why a program with this status couldn't open a folder, or an empty text.
pub fn why_not_opened(folder: &Path, status: i32) -> String {
    said(&["why".as_ref(), folder.as_ref(), status.to_string().as_ref()]).unwrap_or_default()
}

/// The process that has a folder, in words, or an empty text.
pub fn holder_of(folder: &Path) -> String {
    said(&["holder".as_ref(), folder.as_ref()]).unwrap_or_default()
}

/// Makes the folder of a recording, or notes there that its store is opened again.
pub fn prepare_recording(place: &Path, store: Option<&Path>) -> Result<(), String> {
    let words = [Some("record".as_ref()), Some(place.as_os_str()), store.map(Path::as_os_str)];
    said(&words.into_iter().flatten().collect::<Vec<&OsStr>>()).map(drop)
}
