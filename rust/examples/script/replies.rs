//! What a script's history says of a refusal.

use nio_table::{
    BlockingError, FinishError, KeyError, ListError, NoSuchCaller, NoSuchSelector, OpenError, RegisterError,
    SelectError,
};

pub trait Refused {
    fn reply(&self) -> &'static str;
}

impl Refused for BlockingError {
    fn reply(&self) -> &'static str {
        match self {
            BlockingError::NoSuchChannel => "no-channel",
            BlockingError::Closed => "closed-channel",
            BlockingError::IllegalBlockingMode => "illegal-blocking-mode",
            BlockingError::Busy => "busy",
        }
    }
}

impl Refused for FinishError {
    fn reply(&self) -> &'static str {
        match self {
            FinishError::Busy => "busy",
            FinishError::NotClosing => "not-closing",
        }
    }
}

impl Refused for KeyError {
    fn reply(&self) -> &'static str {
        match self {
            KeyError::NoSuchKey => "no-key",
            KeyError::Cancelled => "cancelled-key",
            KeyError::IllegalOps => "illegal-ops",
        }
    }
}

impl Refused for ListError {
    fn reply(&self) -> &'static str {
        match self {
            ListError::NoSuchSelector => "no-selector",
            ListError::Closed => "closed-selector",
            ListError::NoMemory => "no-memory",
        }
    }
}

impl Refused for NoSuchCaller {
    fn reply(&self) -> &'static str {
        "no-caller"
    }
}

impl Refused for NoSuchSelector {
    fn reply(&self) -> &'static str {
        "no-selector"
    }
}

impl Refused for RegisterError {
    fn reply(&self) -> &'static str {
        match self {
            RegisterError::NoSuchSelector => "no-selector",
            RegisterError::NoSuchChannel => "no-channel",
            RegisterError::IllegalOps => "illegal-ops",
            RegisterError::ClosedChannel => "closed-channel",
            RegisterError::IllegalBlockingMode => "illegal-blocking-mode",
            RegisterError::CancelledKey => "cancelled-key",
            RegisterError::ClosedSelector => "closed-selector",
            RegisterError::Full => "full",
            RegisterError::Busy => "busy",
        }
    }
}

impl Refused for SelectError {
    fn reply(&self) -> &'static str {
        match self {
            SelectError::NoSuchSelector => "no-selector",
            SelectError::Closed => "closed-selector",
            SelectError::NoMemory => "no-memory",
            SelectError::Busy => "busy",
        }
    }
}

/// A selector that isn't opened.
pub fn no_selector(OpenError::Spent: OpenError) -> String {
    "selectors-spent".into()
}

/// A channel that isn't opened.
pub fn no_channel(OpenError::Spent: OpenError) -> String {
    "channels-spent".into()
}

/// The answer of a call that says nothing else.
pub fn ok<E: Refused>(answer: Result<(), E>) -> String {
    said(answer.map(|()| "ok"))
}

/// What an answer says, or its refusal.
pub fn said<T: ToString, E: Refused>(answer: Result<T, E>) -> String {
    match answer {
        Ok(value) => value.to_string(),
        Err(error) => error.reply().into(),
    }
}

pub fn yes(is: bool) -> String {
    if is { "yes" } else { "no" }.into()
}
