//! An echo server over epoll, with one selector. A second thread makes two connections to it, sends a text over each
//! and reads what comes back; then it wakes the server's selection, and the server ends.

use nio_table::{Asked, Caller, Channel, Key, Kind, Limits, Ops, Ready, Selector, Table, Told, Wait};
use std::collections::HashMap;
use std::error::Error;
use std::io::{self, Read, Write};
use std::net::{Shutdown, SocketAddr, TcpListener, TcpStream};
use std::os::fd::{AsRawFd, RawFd};
use std::sync::atomic::{AtomicBool, Ordering};
use std::sync::Arc;
use std::thread;

mod epoll;
use epoll::{Bell, Epoll, Event};

const MOST: u32 = 16;

/// What moves the bytes of a channel.
enum Link {
    Listener(TcpListener),
    Stream { stream: TcpStream, held: Vec<u8> },
}

impl Link {
    fn fd(&self) -> RawFd {
        match self {
            Link::Listener(listener) => listener.as_raw_fd(),
            Link::Stream { stream, .. } => stream.as_raw_fd(),
        }
    }
}

struct Server {
    caller: Caller,
    selector: Selector,
    epoll: Epoll,
    bell: Arc<Bell>,
    /// The links, by the numbers of their channels.
    links: HashMap<u32, (Channel, Link)>,
    /// What epoll looks for, by the indexes of keys.
    armed: HashMap<u32, u32>,
}

impl Server {
    fn adopt(&mut self, link: Link, kind: Kind, ops: Ops) -> Result<(), Box<dyn Error>> {
        let channel = self.caller.open_channel(kind)?;
        self.caller.set_blocking(channel, false)?;
        let key = self.caller.register(self.selector, channel, ops, channel.number.into())?;
        self.epoll.add(link.fd(), key.index, 0)?;
        self.armed.insert(key.index, 0);
        self.links.insert(channel.number, (channel, link));
        Ok(())
    }

    /// One whole selection: `select()`.
    fn select(&mut self) -> Result<(), Box<dyn Error>> {
        let mut selection = self.caller.select(self.selector, Wait::Forever)?;
        arm(&self.epoll, &self.links, &mut self.armed, &selection.asked())?;
        let mut first = true;
        loop {
            let ready = poll(&self.epoll, &self.bell, first)?;
            match selection.told(&ready, false)? {
                Told::Done(_selected) => return Ok(()),
                Told::Again(same) => selection = same,
            }
            first = false;
        }
    }

    fn serve(&mut self, key: Key) -> Result<(), Box<dyn Error>> {
        let number = u32::try_from(self.caller.attachment(key))?;
        let Some((channel, link)) = self.links.get_mut(&number) else {
            return Ok(());
        };
        match link {
            Link::Listener(listener) => match listener.accept() {
                Ok((stream, _from)) => {
                    stream.set_nonblocking(true)?;
                    self.adopt(Link::Stream { stream, held: Vec::new() }, Kind::Stream, Ops::READ)?;
                }
                Err(error) if is_passing(&error) => {}
                Err(error) => return Err(error.into()),
            },
            Link::Stream { stream, held } => {
                if echo(stream, held) {
                    let ops = if held.is_empty() { Ops::READ } else { Ops::WRITE };
                    self.caller.set_interest(key, ops)?;
                } else {
                    self.caller.close_channel(*channel);
                    self.links.remove(&number);
                }
            }
        }
        Ok(())
    }
}

/// Has epoll look for what a selection asks for.
fn arm(
    epoll: &Epoll,
    links: &HashMap<u32, (Channel, Link)>,
    armed: &mut HashMap<u32, u32>,
    asked: &[Asked],
) -> io::Result<()> {
    for asked in asked {
        let events = events_of(asked.interest);
        let index = asked.key.index;
        if armed.get(&index) == Some(&events) {
            continue;
        }
        if let Some((_channel, link)) = links.get(&asked.channel) {
            epoll.modify(link.fd(), index, events)?;
            armed.insert(index, events);
        }
    }
    Ok(())
}

/// Polls, and says what is ready. The first poll of a selection doesn't wait.
fn poll(epoll: &Epoll, bell: &Bell, first: bool) -> io::Result<Vec<Ready>> {
    let mut ready = Vec::new();
    for Event { index, events } in epoll.wait(if first { 0 } else { -1 })? {
        if index == epoll::BELL {
            bell.hush()?;
        } else {
            ready.push(Ready { index, ops: ops_of(events) });
        }
    }
    Ok(ready)
}

/// Reads, or writes what was read. False: the connection is over.
fn echo(stream: &mut TcpStream, held: &mut Vec<u8>) -> bool {
    let mut bytes = [0; 512];
    let is_reading = held.is_empty();
    match if is_reading { stream.read(&mut bytes) } else { stream.write(held) } {
        Ok(0) => false,
        Ok(count) if is_reading => {
            held.extend_from_slice(&bytes[..count]);
            true
        }
        Ok(count) => {
            held.drain(..count);
            true
        }
        Err(error) => is_passing(&error),
    }
}

/// Whether a call that failed so may succeed later.
fn is_passing(error: &io::Error) -> bool {
    matches!(error.kind(), io::ErrorKind::WouldBlock | io::ErrorKind::Interrupted)
}

fn events_of(interest: Ops) -> u32 {
    let mut events = 0;
    if interest.has(Ops::READ | Ops::ACCEPT) {
        events |= epoll::IN;
    }
    if interest.has(Ops::WRITE) {
        events |= epoll::OUT;
    }
    events
}

fn ops_of(events: u32) -> Ops {
    let mut ops = Ops::NONE;
    if events & (epoll::IN | epoll::ERR | epoll::HUP) != 0 {
        ops = ops | Ops::READ | Ops::ACCEPT;
    }
    if events & (epoll::OUT | epoll::ERR | epoll::HUP) != 0 {
        ops = ops | Ops::WRITE;
    }
    ops
}

fn say(to: SocketAddr, text: &str) -> io::Result<()> {
    let mut stream = TcpStream::connect(to)?;
    stream.write_all(text.as_bytes())?;
    stream.shutdown(Shutdown::Write)?;
    println!("{}", io::read_to_string(stream)?);
    Ok(())
}

fn main() -> Result<(), Box<dyn Error>> {
    let table = Table::new(Limits { callers: 2, selectors: 1, channels: MOST, keys: MOST })?;
    let mut caller = table.caller()?;
    let mut waker = table.caller()?;
    let selector = caller.open_selector()?;
    let epoll = Epoll::new()?;
    let bell = Arc::new(Bell::new()?);
    epoll.add(bell.fd(), epoll::BELL, epoll::IN)?;
    let mut server =
        Server { caller, selector, epoll, bell: bell.clone(), links: HashMap::new(), armed: HashMap::new() };

    let listener = TcpListener::bind("127.0.0.1:0")?;
    listener.set_nonblocking(true)?;
    let at = listener.local_addr()?;
    server.adopt(Link::Listener(listener), Kind::Listener, Ops::ACCEPT)?;

    let over = Arc::new(AtomicBool::new(false));
    let is_over = over.clone();
    let client = thread::spawn(move || -> io::Result<()> {
        let said = say(at, "hello").and_then(|()| say(at, "again"));
        over.store(true, Ordering::SeqCst);
        if !waker.wakeup(selector).map_err(io::Error::other)? {
            bell.ring()?;
        }
        said
    });
    while !is_over.load(Ordering::SeqCst) {
        server.select()?;
        for key in server.caller.take_all_selected(selector)? {
            server.serve(key)?;
        }
    }
    client.join().expect("the client ends")?;
    server.caller.shut(selector)?;
    server.caller.try_finish(selector)?;
    Ok(())
}
