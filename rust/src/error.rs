//! Why a call has no answer.

use crate::raw;
use std::error::Error;
use std::fmt;

/// An enum of refusals: the status of each, and what is said of it.
macro_rules! refusals {
    ($(#[$about:meta])* $name:ident { $($variant:ident = $status:ident: $text:literal,)+ }) => {
        $(#[$about])*
        #[derive(Clone, Copy, Debug, PartialEq, Eq, Hash)]
        pub enum $name {
            $(#[doc = $text] $variant,)+
        }

        impl Refusal for $name {
            fn of(status: raw::nio_status) -> Option<$name> {
                match status {
                    $(raw::$status => Some($name::$variant),)+
                    _ => None,
                }
            }
        }

        impl fmt::Display for $name {
            fn fmt(&self, f: &mut fmt::Formatter<'_>) -> fmt::Result {
                f.write_str(match self {
                    $($name::$variant => $text,)+
                })
            }
        }

        impl Error for $name {}
    };
}

/// What a call refuses, by its statuses.
pub(crate) trait Refusal: Sized {
    fn of(status: raw::nio_status) -> Option<Self>;
}

/// The answer of a call: nothing, or its refusal. The library is proved to answer no other status.
pub(crate) fn answered<E: Refusal>(status: raw::nio_status) -> Result<(), E> {
    if status == raw::NIO_DONE {
        return Ok(());
    }
    match E::of(status) {
        Some(refusal) => Err(refusal),
        None => panic!("nio answered status {status}"),
    }
}

/// The answer of a call that refuses nothing.
pub(crate) fn done(status: raw::nio_status) {
    assert_eq!(status, raw::NIO_DONE, "nio's status");
}

refusals! {
    /// Why a table wasn't made.
    TableError {
        IllegalLimits = NIO_ILLEGAL_ARGUMENT: "no table has such limits",
        NoMemory = NIO_NO_MEMORY: "there is no memory",
    }
}

refusals! {
    /// Why there is no further caller.
    CallerError {
        Spent = NIO_NOT_HELD: "the table has as many callers as it may",
        NoMemory = NIO_NO_MEMORY: "there is no memory",
    }
}

refusals! {
    /// Why a selector or a channel wasn't opened.
    OpenError {
        Spent = NIO_SPENT: "no number is free",
    }
}

refusals! {
    /// Why a closed channel's number has no further channel.
    ReopenError {
        NoSuchChannel = NIO_NO_SUCH_CHANNEL: "the channel was never opened",
        Lost = NIO_LOST: "the channel's number was given to another one",
        Open = NIO_OPEN: "the channel is open",
        SerialsSpent = NIO_SERIALS_SPENT: "the channel's number had as many channels as it may",
        Busy = NIO_BUSY: "another caller is at it",
        Registered = NIO_REGISTERED: "a key of the channel is in a key set",
    }
}

refusals! {
    /// Why a channel's blocking mode wasn't set.
    BlockingError {
        NoSuchChannel = NIO_NO_SUCH_CHANNEL: "the channel was never opened",
        Closed = NIO_CLOSED_CHANNEL: "the channel is closed",
        IllegalBlockingMode = NIO_ILLEGAL_BLOCKING_MODE: "the channel is registered",
        Busy = NIO_BUSY: "another caller is at it",
    }
}

refusals! {
    /// Why a channel wasn't registered.
    RegisterError {
        NoSuchSelector = NIO_NO_SUCH_SELECTOR: "the selector was never opened",
        NoSuchChannel = NIO_NO_SUCH_CHANNEL: "the channel was never opened",
        IllegalOps = NIO_ILLEGAL_OPS: "a channel of this kind doesn't support these operations",
        ClosedChannel = NIO_CLOSED_CHANNEL: "the channel is closed",
        IllegalBlockingMode = NIO_ILLEGAL_BLOCKING_MODE: "the channel is in blocking mode",
        CancelledKey = NIO_CANCELLED_KEY: "the channel's key there is cancelled, and not yet removed",
        ClosedSelector = NIO_CLOSED_SELECTOR: "the selector is closed",
        Full = NIO_SELECTOR_FULL: "the selector has as many keys as it may",
        Busy = NIO_BUSY: "another caller is at it",
    }
}

refusals! {
    /// Why a call on a key has no answer.
    KeyError {
        NoSuchKey = NIO_NO_SUCH_KEY: "the key was never made",
        Cancelled = NIO_CANCELLED_KEY: "the key is cancelled",
        IllegalOps = NIO_ILLEGAL_OPS: "a channel of this kind doesn't support these operations",
    }
}

refusals! {
    /// Why a selector's keys aren't listed.
    ListError {
        NoSuchSelector = NIO_NO_SUCH_SELECTOR: "the selector was never opened",
        Closed = NIO_CLOSED_SELECTOR: "the selector is closed",
        NoMemory = NIO_NO_MEMORY: "there is no memory",
    }
}

refusals! {
    /// Why a selection didn't begin.
    SelectError {
        NoSuchSelector = NIO_NO_SUCH_SELECTOR: "the selector was never opened",
        Closed = NIO_CLOSED_SELECTOR: "the selector is closed",
        NoMemory = NIO_NO_MEMORY: "there is no memory",
        Busy = NIO_BUSY: "a selection is in progress there",
    }
}

refusals! {
    /// Why a selection in progress was told nothing.
    ToldError {
        NoMemory = NIO_NO_MEMORY: "there is no memory",
    }
}

refusals! {
    /// The selector was never opened.
    NoSuchSelector {
        NoSuchSelector = NIO_NO_SUCH_SELECTOR: "the selector was never opened",
    }
}

refusals! {
    /// The table has no caller of this number.
    NoSuchCaller {
        NoSuchCaller = NIO_NO_SUCH_CALLER: "the table has no such caller",
    }
}

refusals! {
    /// Why a closing didn't end.
    FinishError {
        Busy = NIO_BUSY: "a selection is in progress there",
        NotClosing = NIO_NOT_CLOSING: "the caller didn't begin to close the selector",
    }
}
