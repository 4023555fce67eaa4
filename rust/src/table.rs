//! Tables, and callers as they come and go.

use crate::error::{answered, done, CallerError, TableError};
use crate::names::CallerNumber;
use crate::raw;
use std::ptr;
use std::sync::{Mutex, PoisonError};

/// How much a table holds.
#[derive(Clone, Copy, Debug, PartialEq, Eq)]
pub struct Limits {
    /// How many callers can be had, 1 to 63.
    pub callers: u32,
    /// How many selectors can be opened, 1 to 16.
    pub selectors: u32,
    /// How many channels can be open at a time, 1 to 262,144.
    pub channels: u32,
    /// How many keys each selector can have, 1 to 262,144.
    pub keys: u32,
}

/// What all callers share: selectors, channels and keys. It gives callers to threads, and a caller that is dropped
/// comes back to it. It is let go with the last of them.
///
/// ```
/// use nio_table::{Limits, Table};
/// let table = Table::new(Limits { callers: 2, selectors: 1, channels: 8, keys: 8 })?;
/// let mut caller = table.caller()?;
/// let selector = caller.open_selector()?;
/// let mut other = table.caller()?;
/// assert!(table.caller().is_err());
/// std::thread::spawn(move || other.wakeup(selector)).join().unwrap()?;
/// assert!(table.caller().is_ok());
/// # Ok::<(), Box<dyn std::error::Error>>(())
/// ```
pub struct Table {
    keeper: Mutex<Keeper>,
}

/// The table's first caller, which holds the numbers that no caller has yet.
struct Keeper {
    caller: Caller,
    next: u32,
}

impl Table {
    pub fn new(limits: Limits) -> Result<Table, TableError> {
        let limits = raw::nio_limits {
            callers: limits.callers.checked_add(1).ok_or(TableError::IllegalLimits)?,
            selectors: limits.selectors,
            channels: limits.channels,
            keys: limits.keys,
        };
        if limits.callers == 1 {
            return Err(TableError::IllegalLimits);
        }
        let mut caller = Caller::empty();
        answered(unsafe { raw::nio_make(&limits, &mut caller.handle) })?;
        Ok(Table { keeper: Mutex::new(Keeper { caller, next: 1 }) })
    }

    /// A further caller: one that was dropped, or else one with a new number. It isn't interrupted, and has nothing in
    /// progress but the closings that its number began.
    pub fn caller(&self) -> Result<Caller, CallerError> {
        let mut keeper = self.keeper.lock().unwrap_or_else(PoisonError::into_inner);
        match keeper.take_back()? {
            Some(caller) => Ok(caller),
            None => keeper.split(),
        }
    }
}

impl Keeper {
    /// A caller that was dropped, if there is one.
    fn take_back(&mut self) -> Result<Option<Caller>, CallerError> {
        let mut given = Caller::empty();
        let status = unsafe { raw::nio_take_back(&mut self.caller.handle, &mut given.handle) };
        if status == raw::NIO_SPENT {
            return Ok(None);
        }
        answered(status)?;
        given.interrupted();
        Ok(Some(given))
    }

    /// A caller with a new number.
    fn split(&mut self) -> Result<Caller, CallerError> {
        let mut given = Caller::empty();
        answered(unsafe { raw::nio_split(&mut self.caller.handle, self.next, &mut given.handle) })?;
        self.next += 1;
        Ok(given)
    }
}

/// Who makes calls at a table: each thread has its own. It has a number, and an interrupt status, as a thread has in
/// Java.
///
/// No call waits, but for the moment that another call takes. After `wakeup`, `interrupt` and `shut` the program rings
/// what the selecting thread waits for, as an eventfd: the library can't.
///
/// Where a `Caller` is dropped its table has it, for the next who asks for a caller: with its number, the lists that it
/// took, and the closings that it began.
///
/// It may be sent to another thread, but makes one call at a time:
///
/// ```compile_fail
/// fn share<T: Sync>() {}
/// share::<nio_table::Caller>();
/// ```
pub struct Caller {
    pub(crate) handle: raw::nio_caller,
}

// The library is made for this: a handle isn't bound to a thread.
unsafe impl Send for Caller {}

impl Caller {
    /// A handle with no caller, which is to be filled.
    fn empty() -> Caller {
        Caller { handle: raw::nio_caller { at: ptr::null_mut(), full: false } }
    }

    pub fn number(&mut self) -> CallerNumber {
        let mut number = 0;
        done(unsafe { raw::nio_number(&mut self.handle, &mut number) });
        CallerNumber(number)
    }
}

impl Drop for Caller {
    fn drop(&mut self) {
        // (an empty handle is refused; that no place is free doesn't come)
        unsafe { raw::nio_give_back(&mut self.handle) };
        unsafe { raw::nio_free(&mut self.handle) };
    }
}

#[cfg(test)]
mod tests {
    use super::*;
    use std::thread;

    #[test]
    fn callers_in_turn() {
        let table = Table::new(Limits { callers: 2, selectors: 1, channels: 1, keys: 1 }).unwrap();
        let selector = table.caller().unwrap().open_selector().unwrap();
        for _ in 0..50 {
            thread::scope(|threads| {
                for _ in 0..2 {
                    threads.spawn(|| {
                        let mut caller = table.caller().unwrap();
                        let number = caller.number();
                        assert!(!caller.interrupted());
                        caller.interrupt(number).unwrap();
                        caller.wakeup(selector).unwrap();
                    });
                }
            });
        }
        let _all = (table.caller().unwrap(), table.caller().unwrap());
        assert_eq!(table.caller().err(), Some(CallerError::Spent));
    }

    #[test]
    fn limits() {
        let fit = Limits { callers: 1, selectors: 1, channels: 1, keys: 1 };
        assert!(Table::new(fit).is_ok());
        for callers in [0, 64, u32::MAX] {
            assert_eq!(Table::new(Limits { callers, ..fit }).err(), Some(TableError::IllegalLimits));
        }
    }
}
