//! The sockets that the gateway listens at, made here or handed over by a service manager, and who connects to them.

use std::fs::{self, File, OpenOptions};
use std::io::{self, ErrorKind, Read, Write};
use std::net::Shutdown;
use std::os::fd::AsRawFd;
use std::os::unix::fs::{lchown, FileTypeExt, MetadataExt, OpenOptionsExt, PermissionsExt};
use std::path::{Path, PathBuf};

use listenfd::ListenFd;
use mio::event::Source;
use mio::net::{TcpListener, TcpStream, UnixListener, UnixStream};
use mio::{Interest, Registry, Token};
use nix::fcntl::{flock, FlockArg, OFlag};
use nix::sys::socket::{getsockopt, sockopt::PeerCredentials};
use nix::sys::stat::{umask, Mode};

use crate::options::Options;

/// The name of the administrator's socket, if a service manager hands it over.
const ADMIN_NAME: &str = "admin";

/// Why there is no socket to listen at.
pub enum NoSocket {
    /// Another gateway serves at this path.
    Served(PathBuf),
    Failed(String),
}

impl NoSocket {
    pub fn text(&self) -> String {
        match self {
            NoSocket::Served(path) => format!("another gateway serves {}", path.display()),
            NoSocket::Failed(why) => why.clone(),
        }
    }
}

/// Says of a path why it isn't to be had.
fn at(path: &Path) -> impl Fn(io::Error) -> NoSocket + '_ {
    |error| NoSocket::Failed(format!("{}: {error}", path.display()))
}

/// A socket that accepts connections.
trait Listening: Source {
    fn next(&self) -> io::Result<Box<dyn Stream>>;
}

impl Listening for UnixListener {
    fn next(&self) -> io::Result<Box<dyn Stream>> {
        Ok(Box::new(self.accept()?.0))
    }
}

impl Listening for TcpListener {
    fn next(&self) -> io::Result<Box<dyn Stream>> {
        let (stream, _) = self.accept()?;
        stream.set_nodelay(true)?;
        Ok(Box::new(stream))
    }
}

/// A socket to listen at. A file of its own is removed when it is dropped, if it still is the same.
pub struct Listener {
    listening: Box<dyn Listening>,
    pub is_admin: bool,
    file: Option<(PathBuf, u64, File)>,
}

impl Drop for Listener {
    fn drop(&mut self) {
        if let Some((path, inode, _)) = &self.file {
            if fs::symlink_metadata(path).is_ok_and(|found| found.ino() == *inode) {
                let _ = fs::remove_file(path);
            }
        }
    }
}

impl Listener {
    pub fn register(&mut self, registry: &Registry, token: Token) -> io::Result<()> {
        registry.register(&mut *self.listening, token, Interest::READABLE)
    }

    /// The next connection.
    pub fn accept(&self) -> io::Result<Box<dyn Stream>> {
        self.listening.next()
    }
}

/// All sockets of the options and of the service manager.
pub fn listen(options: &Options) -> Result<Vec<Listener>, NoSocket> {
    let mut found = inherited().map_err(|error| NoSocket::Failed(error.to_string()))?;
    let clients = (&options.socket, options.mode(), options.group, false);
    for (path, mode, group, is_admin) in [clients, (&options.admin, options.admin_mode, None, true)] {
        if let Some(path) = path {
            found.push(unix(path, mode, group, is_admin)?);
        }
    }
    if let Some(port) = options.tcp {
        let place = format!("127.0.0.1:{port}");
        let bound = place.parse().map(TcpListener::bind).expect("a place in the form of one");
        let listening = Box::new(bound.map_err(at(Path::new(&place)))?);
        found.push(Listener { listening, is_admin: false, file: None });
    }
    if found.is_empty() {
        return Err(NoSocket::Failed("there is nowhere to listen: name a --socket or a --tcp".into()));
    }
    Ok(found)
}

/// A listening socket at a path, which at no moment can be opened by users that its mode and group exclude. One at
/// which nobody answers is replaced. The lock beside it stays, and is held as long as the listener is there.
fn unix(path: &Path, mode: u32, group: Option<u32>, is_admin: bool) -> Result<Listener, NoSocket> {
    let lock = lock_beside(path)?;
    remove_stale(path)?;
    let before = umask(Mode::all());
    let bound = UnixListener::bind(path);
    umask(before);
    let listening = Box::new(bound.map_err(at(path))?);
    let inode = fs::symlink_metadata(path).map_err(at(path))?.ino();
    let listener = Listener { listening, is_admin, file: Some((path.to_owned(), inode, lock)) };
    if group.is_some() {
        lchown(path, None, group).map_err(at(path))?;
    }
    fs::set_permissions(path, fs::Permissions::from_mode(mode)).map_err(at(path))?;
    Ok(listener)
}

/// The lock of a socket's path: a file beside it, which one gateway at a time holds.
fn lock_beside(path: &Path) -> Result<File, NoSocket> {
    let mut name = path.as_os_str().to_owned();
    name.push(".lock");
    let file = private(Path::new(&name)).map_err(at(Path::new(&name)))?;
    match flock(file.as_raw_fd(), FlockArg::LockExclusiveNonblock) {
        Ok(()) => Ok(file),
        Err(_) => Err(NoSocket::Served(path.to_owned())),
    }
}

/// A file opened to append to, made if it isn't there, which only its owner may read. No link is followed.
pub fn private(path: &Path) -> io::Result<File> {
    let flags = OFlag::O_NOFOLLOW | OFlag::O_NONBLOCK;
    OpenOptions::new().append(true).create(true).mode(0o600).custom_flags(flags.bits()).open(path)
}

/// Removes a socket at which nobody answers.
fn remove_stale(path: &Path) -> Result<(), NoSocket> {
    match fs::symlink_metadata(path) {
        Err(error) if error.kind() == ErrorKind::NotFound => return Ok(()),
        Err(error) => return Err(at(path)(error)),
        Ok(found) if found.file_type().is_socket() => {}
        Ok(_) => return Err(NoSocket::Failed(format!("{} is there, and is no socket", path.display()))),
    }
    match std::os::unix::net::UnixStream::connect(path) {
        Err(error) if error.kind() == ErrorKind::ConnectionRefused => fs::remove_file(path).map_err(at(path)),
        Err(error) if error.kind() != ErrorKind::WouldBlock => Err(at(path)(error)),
        _ => Err(NoSocket::Served(path.to_owned())),
    }
}

/// The sockets that a service manager has handed over.
fn inherited() -> io::Result<Vec<Listener>> {
    let names = std::env::var("LISTEN_FDNAMES").unwrap_or_default();
    std::env::remove_var("LISTEN_FDNAMES");
    let (mut given, mut found) = (ListenFd::from_env(), Vec::new());
    for place in 0..given.len() {
        let taken = "a socket that isn't taken yet";
        let listening: Box<dyn Listening> = match given.take_unix_listener(place) {
            Ok(listener) => {
                let listener = listener.expect(taken);
                listener.set_nonblocking(true)?;
                Box::new(UnixListener::from_std(listener))
            }
            Err(_) => {
                let listener = given.take_tcp_listener(place)?.expect(taken);
                listener.set_nonblocking(true)?;
                Box::new(TcpListener::from_std(listener))
            }
        };
        let is_admin = names.split(':').nth(place) == Some(ADMIN_NAME);
        found.push(Listener { listening, is_admin, file: None });
    }
    Ok(found)
}

/// A connection.
pub trait Stream: Source + Read + Write {
    /// Says that nothing more will be written. The connection may have ended already.
    fn end_writing(&self);

    /// Who is at the other end.
    fn peer(&self) -> Peer;
}

impl Stream for UnixStream {
    fn end_writing(&self) {
        let _ = self.shutdown(Shutdown::Write);
    }

    fn peer(&self) -> Peer {
        let found = getsockopt(self.as_raw_fd(), PeerCredentials);
        found.map_or_else(|_| Peer::default(), |found| Peer { process: Some(found.pid()), user: Some(found.uid()) })
    }
}

impl Stream for TcpStream {
    fn end_writing(&self) {
        let _ = self.shutdown(Shutdown::Write);
    }

    fn peer(&self) -> Peer {
        Peer::default()
    }
}

/// Who is at the other end of a connection, if that is known: over TCP it isn't.
#[derive(Clone, Copy, Default)]
pub struct Peer {
    pub process: Option<i32>,
    pub user: Option<u32>,
}

impl Peer {
    /// Whether it is the gateway's own user or root.
    pub fn is_owner(&self) -> bool {
        self.user.is_some_and(|user| user == 0 || user == nix::unistd::geteuid().as_raw())
    }
}
