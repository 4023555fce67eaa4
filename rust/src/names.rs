//! The names of what a table holds, and what is said of it.

use crate::raw;
use std::fmt;
use std::ops::{BitAnd, BitOr, Not};
use std::time::Duration;

/// A selector's number.
#[derive(Clone, Copy, Debug, PartialEq, Eq, Hash, PartialOrd, Ord)]
pub struct Selector(pub u32);

/// A caller's number: who is interrupted.
#[derive(Clone, Copy, Debug, PartialEq, Eq, Hash, PartialOrd, Ord)]
pub struct CallerNumber(pub u32);

/// A channel: its number, and how many channels had this number before. The program ties the number to a socket of its
/// own.
#[derive(Clone, Copy, Debug, PartialEq, Eq, Hash, PartialOrd, Ord)]
pub struct Channel {
    pub number: u32,
    pub serial: u32,
}

/// A key: its selector, its index there, and how many keys had this index before.
#[derive(Clone, Copy, Debug, PartialEq, Eq, Hash, PartialOrd, Ord)]
pub struct Key {
    pub selector: Selector,
    pub index: u32,
    pub serial: u32,
}

/// A kind of channel, as Java has it.
#[derive(Clone, Copy, Debug, PartialEq, Eq, Hash)]
pub enum Kind {
    /// `SocketChannel`: reads, writes, connects.
    Stream = 0,
    /// `ServerSocketChannel`: accepts.
    Listener = 1,
    /// `Pipe.SourceChannel`: reads.
    Source = 2,
    /// `Pipe.SinkChannel`: writes.
    Sink = 3,
    /// `DatagramChannel`: reads, writes.
    Datagram = 4,
}

/// A set of operations, of `SelectionKey`'s.
///
/// ```
/// use nio_table::Ops;
/// let both = Ops::READ | Ops::WRITE;
/// assert!(both.has(Ops::READ));
/// assert_eq!(both & Ops::WRITE, Ops::WRITE);
/// ```
#[repr(transparent)]
#[derive(Clone, Copy, Debug, Default, PartialEq, Eq, Hash)]
pub struct Ops(u8);

impl Ops {
    pub const NONE: Ops = Ops(0);
    pub const READ: Ops = Ops(1);
    pub const WRITE: Ops = Ops(4);
    pub const CONNECT: Ops = Ops(8);
    pub const ACCEPT: Ops = Ops(16);

    /// The set with these bits.
    pub const fn from_bits(bits: u8) -> Ops {
        Ops(bits)
    }

    pub const fn bits(self) -> u8 {
        self.0
    }

    pub const fn is_none(self) -> bool {
        self.0 == 0
    }

    /// Whether it has one of these.
    pub const fn has(self, others: Ops) -> bool {
        self.0 & others.0 != 0
    }
}

impl BitOr for Ops {
    type Output = Ops;

    fn bitor(self, other: Ops) -> Ops {
        Ops(self.0 | other.0)
    }
}

impl BitAnd for Ops {
    type Output = Ops;

    fn bitand(self, other: Ops) -> Ops {
        Ops(self.0 & other.0)
    }
}

impl Not for Ops {
    type Output = Ops;

    fn not(self) -> Ops {
        Ops(!self.0)
    }
}

/// How long a selection waits.
#[derive(Clone, Copy, Debug, PartialEq, Eq)]
pub enum Wait {
    /// Not at all: `selectNow`.
    Now,
    /// Without limit: `select()`.
    Forever,
    /// For this time: `select(long)`. It counts in milliseconds, rounded up; no time is one millisecond.
    For(Duration),
}

impl Wait {
    /// The milliseconds of nio_begin, where 0 is without limit. None: it doesn't wait.
    pub(crate) fn milliseconds(self) -> Option<i64> {
        match self {
            Wait::Now => None,
            Wait::Forever => Some(0),
            Wait::For(time) => {
                let ms = time.as_nanos().div_ceil(1_000_000).max(1);
                Some(i64::try_from(ms).unwrap_or(i64::MAX))
            }
        }
    }
}

/// A key that a selection asks for, as it found the key when it began.
#[derive(Clone, Copy, Debug, PartialEq, Eq, Hash)]
pub struct Asked {
    pub key: Key,
    /// The channel's number.
    pub channel: u32,
    pub interest: Ops,
}

/// What a poll found: operations that the channel of a key is ready for. It is laid out as `nio_pair`.
#[repr(C)]
#[derive(Clone, Copy, Debug, PartialEq, Eq, Hash)]
pub struct Ready {
    /// The key's index.
    pub index: u32,
    pub ops: Ops,
}

/// What a selection did to a key as it was told.
#[derive(Clone, Copy, Debug, PartialEq, Eq, Hash)]
pub struct Changed {
    pub key: Key,
    /// The channel's number.
    pub channel: u32,
    pub change: Change,
}

/// What was done to a key.
#[derive(Clone, Copy, Debug, PartialEq, Eq, Hash)]
pub enum Change {
    /// It was added to the selected set, or operations to its ready set. Its ready set since.
    Marked(Ops),
    /// It was removed from its selector.
    Removed,
}

/// What a selection did to keys as it was told: first those that it marked, then those that it removed, each by rising
/// indexes.
#[derive(Clone, Debug, PartialEq, Eq)]
pub struct Changes {
    /// The first of them, as many as there was room for.
    pub list: Vec<Changed>,
    /// How many there were.
    pub count: usize,
}

/// A selection that is over.
#[derive(Clone, Copy, Debug, PartialEq, Eq, Hash)]
pub struct Selected {
    /// How many keys it updated.
    pub count: u32,
    pub why: Why,
}

/// Why a selection is over.
#[derive(Clone, Copy, Debug, PartialEq, Eq, Hash)]
pub enum Why {
    /// It updated a key.
    Ready,
    /// It doesn't wait.
    Now,
    /// A wakeup was pending.
    Woken,
    /// The selector is being closed.
    Closed,
    /// The caller's interrupt status is set.
    Interrupted,
    /// Its time is over.
    Elapsed,
}

impl fmt::Display for Channel {
    fn fmt(&self, f: &mut fmt::Formatter<'_>) -> fmt::Result {
        write!(f, "c{}.{}", self.number, self.serial)
    }
}

impl fmt::Display for Key {
    fn fmt(&self, f: &mut fmt::Formatter<'_>) -> fmt::Result {
        write!(f, "s{} k{}.{}", self.selector.0, self.index, self.serial)
    }
}

// ---- as the library has them

impl From<Channel> for raw::nio_channel {
    fn from(channel: Channel) -> raw::nio_channel {
        raw::nio_channel { number: channel.number, serial: channel.serial }
    }
}

impl From<raw::nio_channel> for Channel {
    fn from(channel: raw::nio_channel) -> Channel {
        Channel { number: channel.number, serial: channel.serial }
    }
}

impl From<Key> for raw::nio_key {
    fn from(key: Key) -> raw::nio_key {
        raw::nio_key { selector: key.selector.0, index: key.index, serial: key.serial }
    }
}

impl From<raw::nio_key> for Key {
    fn from(key: raw::nio_key) -> Key {
        Key { selector: Selector(key.selector), index: key.index, serial: key.serial }
    }
}

impl From<raw::nio_selected> for Selected {
    fn from(selected: raw::nio_selected) -> Selected {
        let why = match selected.why {
            0 => Why::Ready,
            1 => Why::Now,
            2 => Why::Woken,
            3 => Why::Closed,
            4 => Why::Interrupted,
            5 => Why::Elapsed,
            why => panic!("nio answered why {why}"),
        };
        Selected { count: selected.count, why }
    }
}
