//! epoll, and an eventfd that ends its waits.

use std::io;
use std::os::fd::{AsRawFd, FromRawFd, OwnedFd, RawFd};
use std::os::raw::c_int;

pub const IN: u32 = 1;
pub const OUT: u32 = 4;
pub const ERR: u32 = 8;
pub const HUP: u32 = 16;

/// The index of the bell.
pub const BELL: u32 = u32::MAX;

const CTL_ADD: c_int = 1;
const CTL_MOD: c_int = 3;
const CLOEXEC: c_int = 0o2_000_000;
const NONBLOCK: c_int = 0o4_000;

#[repr(C)]
#[cfg_attr(target_arch = "x86_64", repr(packed))]
#[derive(Clone, Copy)]
struct RawEvent {
    events: u32,
    data: u64,
}

extern "C" {
    fn epoll_create1(flags: c_int) -> c_int;
    fn epoll_ctl(epoll: c_int, what: c_int, fd: c_int, event: *mut RawEvent) -> c_int;
    fn epoll_wait(epoll: c_int, events: *mut RawEvent, room: c_int, timeout: c_int) -> c_int;
    fn eventfd(count: u32, flags: c_int) -> c_int;
    fn read(fd: c_int, bytes: *mut u8, room: usize) -> isize;
    fn write(fd: c_int, bytes: *const u8, length: usize) -> isize;
}

fn checked(answer: c_int) -> io::Result<c_int> {
    if answer < 0 {
        return Err(io::Error::last_os_error());
    }
    Ok(answer)
}

fn owned(answer: c_int) -> io::Result<OwnedFd> {
    // SAFETY: the descriptor is new.
    Ok(unsafe { OwnedFd::from_raw_fd(checked(answer)?) })
}

pub struct Event {
    /// What `add` was given.
    pub index: u32,
    pub events: u32,
}

pub struct Epoll(OwnedFd);

impl Epoll {
    pub fn new() -> io::Result<Epoll> {
        Ok(Epoll(owned(unsafe { epoll_create1(CLOEXEC) })?))
    }

    pub fn add(&self, fd: RawFd, index: u32, events: u32) -> io::Result<()> {
        self.control(CTL_ADD, fd, index, events)
    }

    pub fn modify(&self, fd: RawFd, index: u32, events: u32) -> io::Result<()> {
        self.control(CTL_MOD, fd, index, events)
    }

    fn control(&self, what: c_int, fd: RawFd, index: u32, events: u32) -> io::Result<()> {
        let mut event = RawEvent { events, data: index.into() };
        checked(unsafe { epoll_ctl(self.0.as_raw_fd(), what, fd, &mut event) })?;
        Ok(())
    }

    /// Waits for so many milliseconds; -1 is without limit.
    pub fn wait(&self, ms: c_int) -> io::Result<Vec<Event>> {
        let mut events = [RawEvent { events: 0, data: 0 }; 16];
        let count = checked(unsafe { epoll_wait(self.0.as_raw_fd(), events.as_mut_ptr(), 16, ms) })?;
        Ok(events[..count as usize].iter().map(|it| Event { index: it.data as u32, events: it.events }).collect())
    }
}

/// What a wakeup rings: an eventfd.
pub struct Bell(OwnedFd);

impl Bell {
    pub fn new() -> io::Result<Bell> {
        Ok(Bell(owned(unsafe { eventfd(0, CLOEXEC | NONBLOCK) })?))
    }

    pub fn fd(&self) -> RawFd {
        self.0.as_raw_fd()
    }

    pub fn ring(&self) -> io::Result<()> {
        let one = 1_u64.to_ne_bytes();
        match unsafe { write(self.fd(), one.as_ptr(), 8) } {
            8 => Ok(()),
            _ => Err(io::Error::last_os_error()),
        }
    }

    pub fn hush(&self) -> io::Result<()> {
        let mut count = [0; 8];
        match unsafe { read(self.fd(), count.as_mut_ptr(), 8) } {
            8 => Ok(()),
            _ => Err(io::Error::last_os_error()),
        }
    }
}
