//! The program behind the gateway: requests go to it with their clients' numbers, and its replies come in their order.

use std::collections::VecDeque;
use std::io::{ErrorKind, Read, Write};
use std::os::fd::AsRawFd;
use std::os::unix::process::{CommandExt, ExitStatusExt};
use std::process::{Child, Command, ExitStatus, Stdio};
use std::thread::sleep;
use std::time::{Duration, Instant};

use bytes::{Buf, BytesMut};
use mio::unix::pipe::{Receiver, Sender};
use mio::{Interest, Registry, Token};
use nix::fcntl::{fcntl, FcntlArg};

use crate::failure::Failure;
use crate::household::Reply;
use crate::options::Options;
use crate::protocol::{be32, Kind, Request, HEAD};
use crate::recording::Recording;

/// The number by which the program knows the administrator, and the gateway itself. No connection gets it.
pub const ADMINISTRATOR: u32 = u32::MAX;

/// The bytes that the program may leave unread. Beyond this nothing is sent to it.
const MOST_UNTAKEN: usize = 1 << 20;

/// The size of a pipe, and of a read of replies.
const PIPE: i32 = 1 << 20;
const PIECE: usize = 1 << 18;

/// Who has asked, and gets the reply.
pub enum Asker {
    /// The client in this place.
    Client(usize),
    /// Nobody: the client in this place is gone, and the program is told so.
    End(usize),
    /// The gateway itself.
    Own(Reply),
}

/// A request that the program has, and what is to be known of it at its reply.
pub struct Run {
    pub asker: Asker,
    pub number: u32,
    pub request: Request,
    pub since: Instant,
    /// The body of a Commit.
    pub commit: Option<Box<[u8]>>,
}

impl Run {
    pub fn new(asker: Asker, number: u32, request: Request, since: Instant) -> Run {
        Run { asker, number, request, since, commit: None }
    }

    /// What it opens, if that stays open.
    pub fn opens(&self) -> Option<Kind> {
        self.request.opens.filter(|_| self.request.stays)
    }
}

/// A running tabletd. Its standard error is the gateway's, and a Ctrl-C at the terminal isn't for it.
pub struct Program {
    child: Child,
    input: Option<Sender>,
    output: Receiver,
    out: BytesMut,
    /// The bytes of replies that came, of which none is whole between two reads.
    pub came: BytesMut,
    piece: Box<[u8]>,
    is_stuck: bool,
    recording: Option<Recording>,
    /// How many bytes of the requests to be written are in the recording.
    noted: usize,
    grace: Duration,
    pub runs: VecDeque<Run>,
    pub weight: u32,
    /// How many requests it has got and answered.
    pub sent: u64,
    pub answered: u64,
}

impl Program {
    pub fn start(options: &Options, recording: Option<Recording>) -> std::io::Result<Program> {
        let number = ADMINISTRATOR.to_string();
        let mut child = Command::new(&options.program)
            .args(options.program_words())
            .args(["--clients", "--admin", &number])
            .stdin(Stdio::piped())
            .stdout(Stdio::piped())
            .process_group(0)
            .spawn()?;
        let (input, output) = (child.stdin.take().expect("a pipe"), child.stdout.take().expect("a pipe"));
        for descriptor in [input.as_raw_fd(), output.as_raw_fd()] {
            // It stays smaller if the system allows no more
            let _ = fcntl(descriptor, FcntlArg::F_SETPIPE_SZ(PIPE));
        }
        let (input, output) = (Sender::from(input), Receiver::from(output));
        input.set_nonblocking(true)?;
        output.set_nonblocking(true)?;
        Ok(Program {
            child,
            input: Some(input),
            output,
            out: BytesMut::new(),
            came: BytesMut::new(),
            piece: vec![0; PIECE].into(),
            is_stuck: false,
            recording,
            noted: 0,
            grace: options.grace,
            runs: VecDeque::new(),
            weight: 0,
            sent: 0,
            answered: 0,
        })
    }

    pub fn register(&mut self, registry: &Registry, input: Token, output: Token) -> std::io::Result<()> {
        if let Some(sender) = &mut self.input {
            registry.register(sender, input, Interest::WRITABLE)?;
        }
        registry.register(&mut self.output, output, Interest::READABLE)
    }

    /// The number of the process.
    pub fn process(&self) -> u32 {
        self.child.id()
    }

    /// Takes a request, which leaves with the next flush.
    pub fn send(&mut self, body: &[u8], run: Run) {
        self.out.extend_from_slice(&((HEAD + body.len()) as u32).to_be_bytes());
        self.out.extend_from_slice(&run.number.to_be_bytes());
        self.out.extend_from_slice(body);
        self.weight += run.request.weight;
        self.sent += 1;
        self.runs.push_back(run);
    }

    /// Whether it has left so many bytes unread that nothing is to be sent.
    pub fn is_full(&self) -> bool {
        self.out.len() >= MOST_UNTAKEN
    }

    /// Its input can be written again.
    pub fn eased(&mut self) {
        self.is_stuck = false;
    }

    /// Adds the requests that are to be written to the recording.
    fn note_requests(&mut self) -> Result<(), Failure> {
        if let (Some(recording), true) = (&mut self.recording, self.noted < self.out.len()) {
            recording.note_requests(&self.out[self.noted..])?;
            self.noted = self.out.len();
        }
        Ok(())
    }

    /// Writes what it takes now. What it doesn't read any more, its end will tell.
    pub fn flush(&mut self) -> Result<(), Failure> {
        if self.input.is_some() {
            self.note_requests()?;
        }
        while let (Some(input), false, false) = (&mut self.input, self.is_stuck, self.out.is_empty()) {
            match input.write(&self.out) {
                Ok(count) => {
                    self.out.advance(count);
                    self.noted = self.noted.saturating_sub(count);
                }
                Err(error) if error.kind() == ErrorKind::WouldBlock => self.is_stuck = true,
                Err(error) if error.kind() == ErrorKind::Interrupted => {}
                Err(_) => self.input = None,
            }
        }
        Ok(())
    }

    /// Reads replies. Returns whether there may be more of them, or None if the program has ended its output, which it
    /// may have if it has hung up.
    pub fn read(&mut self, has_hung_up: bool) -> Result<Option<bool>, Failure> {
        match self.output.read(&mut self.piece) {
            Ok(0) => Ok(None),
            Ok(count) => {
                if let Some(recording) = &mut self.recording {
                    recording.note_replies(&self.piece[..count])?;
                }
                self.came.extend_from_slice(&self.piece[..count]);
                Ok(Some(count == PIECE || has_hung_up))
            }
            Err(error) if error.kind() == ErrorKind::WouldBlock => Ok(Some(false)),
            Err(error) if error.kind() == ErrorKind::Interrupted => Ok(Some(true)),
            Err(error) => Err(error.into()),
        }
    }

    /// The next whole reply among the bytes that came, from a place on, which then is behind it: its run, and its body
    /// without the client's number.
    pub fn reply<'a>(&mut self, came: &'a [u8], at: &mut usize) -> Result<Option<(Run, &'a [u8])>, Failure> {
        let rest = &came[*at..];
        let Some(frame) = rest.get(..HEAD).and_then(|head| rest.get(HEAD..HEAD + be32(head))) else { return Ok(None) };
        let run = self.runs.pop_front().ok_or_else(|| Failure("a reply to no request came".into()))?;
        if frame.len() <= HEAD || be32(&frame[..HEAD]) != run.number as usize {
            return Err(Failure(format!("the reply to a request of client {} isn't its own", run.number)));
        }
        *at += HEAD + frame.len();
        self.weight -= run.request.weight;
        self.answered += 1;
        Ok(Some((run, &frame[HEAD..])))
    }

    /// Ends its input, after all that was sent.
    pub fn close_input(&mut self) {
        self.input = None;
    }

    /// The status with which it has ended.
    pub fn wait(&mut self) -> std::io::Result<ExitStatus> {
        self.child.wait()
    }
}

impl Drop for Program {
    /// Ends its input, and waits for its end. After the seconds of grace it is killed.
    fn drop(&mut self) {
        self.close_input();
        let end = Instant::now() + self.grace;
        while matches!(self.child.try_wait(), Ok(None)) {
            if Instant::now() >= end {
                let _ = self.child.kill();
                let _ = self.child.wait();
            }
            sleep(Duration::from_millis(5));
        }
    }
}

/// The status of the gateway by that of a program, as in a shell, and the line on it.
pub fn explained(status: ExitStatus) -> (i32, String) {
    let told = status.code().unwrap_or_else(|| -status.signal().unwrap_or(0));
    let why = match told {
        1 => ": the command line is refused",
        2 => ": the input ended inside a frame",
        3 => ": a frame was too large",
        4 => ": a device failed, at open or under the log",
        5 => ": the store is damaged at open",
        6 => ": a read or a write failed",
        7 => ": there is no memory",
        8 => ": all reads are used up",
        _ => "",
    };
    let code = if told < 0 { 128 - told } else { told };
    (code, format!("the program has ended with status {told}{why}"))
}
