//! The selectors of Java SE 17's `java.nio.channels`: safe types over the static library of `crates/nio_c`, whose calls
//! are proved (`docs/C.md` says what, and what not). A table holds selectors, channels and keys; each thread has a
//! caller of its own, and calls may overlap freely. The library carries no bytes and polls nothing: `examples/echo`
//! has an echo server over epoll.
//!
//! ```
//! use nio_table::{Kind, Limits, Ops, Ready, Table, Told, Wait};
//!
//! let table = Table::new(Limits { callers: 2, selectors: 1, channels: 64, keys: 64 })?;
//! let mut caller = table.caller()?;
//! let selector = caller.open_selector()?;
//! let channel = caller.open_channel(Kind::Stream)?;
//! caller.set_blocking(channel, false)?;
//! let key = caller.register(selector, channel, Ops::READ, 0)?;
//!
//! let mut selection = caller.select(selector, Wait::Now)?;
//! for asked in selection.asked() {
//!     // tell epoll to look for asked.interest on the socket of asked.channel
//!     assert_eq!(asked.channel, channel.number);
//! }
//! // what epoll found:
//! match selection.told(&[Ready { index: key.index, ops: Ops::READ }], false)? {
//!     Told::Done(selected) => assert_eq!(selected.count, 1),
//!     Told::Again(_selection) => unreachable!("a selection that doesn't wait is over now"),
//! }
//! assert_eq!(caller.take_all_selected(selector)?, [key]);
//! # Ok::<(), Box<dyn std::error::Error>>(())
//! ```
//!
//! A caller that selects makes no other call:
//!
//! ```compile_fail
//! # use nio_table::{Limits, Table, Wait};
//! # let table = Table::new(Limits { callers: 1, selectors: 1, channels: 1, keys: 1 }).unwrap();
//! # let mut caller = table.caller().unwrap();
//! # let selector = caller.open_selector().unwrap();
//! let selection = caller.select(selector, Wait::Forever).unwrap();
//! caller.wakeup(selector);
//! selection.leave();
//! ```

mod caller;
mod error;
mod names;
mod raw;
mod selection;
mod table;

pub use error::{
    BlockingError, CallerError, FinishError, KeyError, ListError, NoSuchCaller, NoSuchSelector, OpenError,
    RegisterError, ReopenError, SelectError, TableError, ToldError,
};
pub use names::{
    Asked, CallerNumber, Change, Changed, Changes, Channel, Key, Kind, Ops, Ready, Selected, Selector, Wait, Why,
};
pub use selection::{Selection, Told};
pub use table::{Caller, Limits, Table};
