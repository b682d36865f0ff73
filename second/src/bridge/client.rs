//! The desk at the other end of a bridge.

use super::wire::{self, ANSWER_NUMBERS, Arguments, Fields, GIVEN, NOTHING, SAME, TABLES};
use crate::compare::{Asked, Called, Desk, Lent, Outcome, bytes_of_ticks};
use std::io::{self, ErrorKind, Read, Write};
use std::net::Shutdown;
use std::os::fd::OwnedFd;
use std::os::unix::net::UnixStream;
use std::process::{Child, Command};
use std::thread;
use std::time::{Duration, Instant};

/// A bridge that takes longer for one request is lost.
pub const TIME_LIMIT: Duration = Duration::from_secs(60);
/// How long a bridge that has closed its output may take to end.
const ENDING: Duration = Duration::from_secs(1);

/// The bridge's standard input and output. They are one socket and not two
/// pipes, since a socket's reads and writes can be given a time limit.
struct Line {
    socket: UnixStream,
    limit: Duration,
    begin: Instant,
}

impl Line {
    /// The socket's own limit is one for each read and write; many short ones
    /// must not take longer either.
    fn in_time(&self) -> io::Result<()> {
        match self.begin.elapsed() < self.limit {
            true => Ok(()),
            false => Err(ErrorKind::TimedOut.into()),
        }
    }
}

impl Read for Line {
    fn read(&mut self, bytes: &mut [u8]) -> io::Result<usize> {
        self.in_time()?;
        self.socket.read(bytes)
    }
}

impl Write for Line {
    fn write(&mut self, bytes: &[u8]) -> io::Result<usize> {
        self.in_time()?;
        self.socket.write(bytes)
    }

    fn flush(&mut self) -> io::Result<()> {
        Ok(())
    }
}

/// What came back of one request.
struct Came {
    fields: Fields,
    seen: u64,
    buffer: Vec<u8>,
}

pub struct Bridge {
    child: Child,
    line: Line,
    answers: u64,
    /// The tables that were given last, each in its place; the bridge still has
    /// them there.
    tables: [Option<Vec<u8>>; TABLES],
}

/// The bridge is not needed any more, and may be one that hangs.
impl Drop for Bridge {
    fn drop(&mut self) {
        // Nothing can be done where this fails.
        let _ = self.child.kill();
        let _ = self.child.wait();
    }
}

fn nonsense(what: &str) -> io::Error {
    io::Error::new(ErrorKind::InvalidData, what)
}

impl Bridge {
    /// Starts the words of a command, and sees that it is a bridge.
    pub fn start(command: &[&str], limit: Duration) -> Result<Bridge, String> {
        let mut bridge = Bridge::spawn(command, limit)
            .map_err(|error| format!("the bridge cannot be started: {error}"))?;
        let request = bridge.request(wire::NONE, [0; 4], &Lent::default());
        match bridge.send(&request).and_then(|()| bridge.receive(0)) {
            Ok(_) => Ok(bridge),
            Err(error) => Err(bridge.loss(error)),
        }
    }

    fn spawn(command: &[&str], limit: Duration) -> io::Result<Bridge> {
        let (program, arguments) = command.split_first().ok_or(ErrorKind::InvalidInput)?;
        let (socket, theirs) = UnixStream::pair()?;
        socket.set_read_timeout(Some(limit))?;
        socket.set_write_timeout(Some(limit))?;
        let child = Command::new(program)
            .args(arguments)
            .stdin(OwnedFd::from(theirs.try_clone()?))
            .stdout(OwnedFd::from(theirs))
            .spawn()?;
        Ok(Bridge {
            child,
            line: Line {
                socket,
                limit,
                begin: Instant::now(),
            },
            answers: 0,
            tables: [None, None],
        })
    }

    /// A request's bytes. A table that the bridge has already in this place is not
    /// sent again; one that it has in the other place is.
    fn request(&mut self, function: u64, arguments: Arguments, lent: &Lent) -> Vec<u8> {
        let list = bytes_of_ticks(lent.list);
        let places = [lent.table, lent.second_table, &list, &lent.buffer];
        let (mut bytes, mut given) = (Vec::new(), Vec::new());
        wire::put(&mut bytes, &[function]);
        wire::put(&mut bytes, &arguments);
        for (i, place) in places.into_iter().enumerate() {
            let kind = match self.tables.get_mut(i) {
                _ if place.is_empty() && lent.null => NOTHING,
                Some(Some(last)) if last == place => SAME,
                Some(last) => {
                    *last = Some(place.to_vec());
                    GIVEN
                }
                None => GIVEN,
            };
            wire::put(&mut bytes, &[kind, place.len() as u64]);
            if kind == GIVEN {
                given.extend_from_slice(place);
            }
        }
        bytes.extend(given);
        bytes
    }

    fn send(&mut self, requests: &[u8]) -> io::Result<()> {
        self.line.begin = Instant::now();
        self.line.write_all(requests)
    }

    /// The next answer, to a request that lent a buffer of so many bytes. Its time
    /// runs from the sending, or from the answer before.
    fn receive(&mut self, buffer: usize) -> io::Result<Came> {
        let mut bytes = vec![0; 8 * ANSWER_NUMBERS + buffer];
        self.line.read_exact(&mut bytes)?;
        self.line.begin = Instant::now();
        self.answers += 1;
        let buffer = bytes.split_off(8 * ANSWER_NUMBERS);
        let mut head = [0; ANSWER_NUMBERS];
        for (place, number) in head.iter_mut().zip(wire::numbers(&bytes)) {
            *place = number;
        }
        let [request, seen, fields @ ..] = head;
        if request != self.answers {
            return Err(nonsense("an answer to another request"));
        }
        if seen >> wire::SEEN.len() != 0 {
            return Err(nonsense("it has seen what nobody knows"));
        }
        Ok(Came {
            fields,
            seen,
            buffer,
        })
    }

    fn called(&mut self, asked: Asked, buffer: usize) -> io::Result<Called> {
        let came = self.receive(buffer)?;
        let reply = wire::reply_of(asked, came.fields);
        let seen = (0..wire::SEEN.len()).filter(|bit| came.seen >> bit & 1 == 1);
        Ok(Called {
            reply: reply.ok_or(nonsense("fields that no answer has"))?,
            buffer: came.buffer,
            beside: seen.map(|bit| wire::SEEN[bit]).collect(),
        })
    }

    /// Says why there is no answer, and stops the bridge: what it has said since,
    /// or might still say, would be taken for the answer to another request.
    fn loss(&mut self, error: io::Error) -> String {
        let what = match error.kind() {
            ErrorKind::WouldBlock | ErrorKind::TimedOut => {
                format!("the bridge gave no answer in {:?}", self.line.limit)
            }
            ErrorKind::UnexpectedEof | ErrorKind::BrokenPipe | ErrorKind::ConnectionReset => {
                self.ending()
            }
            ErrorKind::InvalidData => format!("the bridge answers nonsense: {error}"),
            _ => format!("the bridge cannot be reached: {error}"),
        };
        // It may have ended already.
        let _ = self.child.kill();
        let _ = self.line.socket.shutdown(Shutdown::Both);
        what
    }

    fn ending(&mut self) -> String {
        let begin = Instant::now();
        while begin.elapsed() < ENDING {
            if let Ok(Some(status)) = self.child.try_wait() {
                return format!("the bridge ended early, with {status}");
            }
            thread::sleep(Duration::from_millis(1));
        }
        "the bridge closed its output".into()
    }
}

impl Desk for Bridge {
    fn call(&mut self, asked: Asked, lent: &Lent) -> Outcome {
        self.calls(&[asked], lent).remove(0)
    }

    /// All are sent before the first answer is read, so that no end waits for the
    /// other at every call. The socket must hold all of them, lest both ends wait
    /// for the other to read: it does where no list and no buffer is lent.
    fn calls(&mut self, asked: &[Asked], lent: &Lent) -> Vec<Outcome> {
        let request = |asked: &Asked| {
            let (function, arguments) = wire::numbers_of(*asked);
            self.request(function, arguments, lent)
        };
        let requests: Vec<Vec<u8>> = asked.iter().map(request).collect();
        if let Err(error) = self.send(&requests.concat()) {
            return vec![Err(self.loss(error))];
        }
        let mut outcomes = Vec::new();
        for asked in asked {
            match self.called(*asked, lent.buffer.len()) {
                Ok(called) => outcomes.push(Ok(called)),
                Err(error) => {
                    outcomes.push(Err(self.loss(error)));
                    break;
                }
            }
        }
        outcomes
    }
}
